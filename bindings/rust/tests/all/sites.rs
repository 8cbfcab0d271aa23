use pulleymaroon::{CookieStore, CrossSite, Error, StoreAction};

use crate::{at, filled, LAST, NOW, PAGE};

/// A top-level navigation, or another request.
const TOP_LEVEL: CrossSite = CrossSite {
    top_level: true,
    lax_by_default: true,
};
const OTHER: CrossSite = CrossSite {
    top_level: false,
    lax_by_default: true,
};
const NONE_BY_DEFAULT: CrossSite = CrossSite {
    top_level: false,
    lax_by_default: false,
};

const URL: &str = "https://a.co.example/d/page";
const SAME_SITE: &str = "https://www.a.co.example/";
const CROSS_SITE: &str = "https://b.co.example/";

#[test]
fn cross_site_requests_have_fewer_cookies() {
    let store = filled(&[
        "n=1; SameSite=None; Path=/d",
        "u=1; Path=/d",
        "l=1; SameSite=Lax",
        "s=1; SameSite=Strict",
    ]);
    let table = [
        (false, true, Some("n=1")),
        (false, false, Some("n=1; u=1")),
        (true, true, Some("n=1; u=1; l=1")),
        (true, false, Some("n=1; u=1; l=1")),
    ];
    for (top_level, lax_by_default, expected) in table {
        let context = CrossSite {
            top_level,
            lax_by_default,
        };
        let header = store
            .cross_site_cookie_header(PAGE, at(NOW), context)
            .unwrap();
        assert_eq!(header.as_deref(), expected, "{context:?}");
    }
    let context = CrossSite {
        top_level: true,
        lax_by_default: true,
    };
    assert_eq!(
        store.cross_site_cookie_header("http://b.example/", at(NOW), context),
        Ok(None)
    );
    assert_eq!(
        store.cross_site_cookie_header("", at(NOW), context),
        Err(Error::BadUrl)
    );
}

#[test]
fn a_page_decides_whether_a_request_is_cross_site() {
    let listed = "co.example\n";
    let table = [
        (listed, SAME_SITE, OTHER, "n=1; u=1; l=1; s=1"),
        (listed, SAME_SITE, TOP_LEVEL, "n=1; u=1; l=1; s=1"),
        (listed, CROSS_SITE, OTHER, "n=1"),
        (listed, CROSS_SITE, NONE_BY_DEFAULT, "n=1; u=1"),
        (listed, CROSS_SITE, TOP_LEVEL, "n=1; u=1; l=1"),
        (listed, "http://a.co.example/", OTHER, "n=1"),
        (listed, "data:text/html,", OTHER, "n=1"),
        (
            "",
            "https://a.co.example:8443/",
            OTHER,
            "n=1; u=1; l=1; s=1",
        ),
        ("", SAME_SITE, OTHER, "n=1"),
    ];
    for (list, page, context, expected) in table {
        let mut store = CookieStore::new().unwrap();
        if !list.is_empty() {
            store.set_suffix_list(list).unwrap();
        }
        for set_cookie in [
            "n=1; SameSite=None; Path=/d",
            "u=1; Path=/d",
            "l=1; SameSite=Lax; Path=/",
            "s=1; SameSite=Strict; Path=/",
        ] {
            store.parse(set_cookie, URL, at(NOW)).unwrap();
        }
        let header = store.cookie_header_for(URL, page, at(NOW), context);
        assert_eq!(
            header,
            Ok(Some(expected.to_owned())),
            "{list:?} {page} {context:?}"
        );
    }
}

#[test]
fn a_page_decides_whether_a_response_is_cross_site() {
    let table = [
        ("a=1; SameSite=Strict", SAME_SITE, OTHER, None),
        ("a=1", SAME_SITE, OTHER, None),
        ("__Host-a=1", SAME_SITE, OTHER, Some(Error::Prefix)),
        (
            "a=1; SameSite=Lax",
            CROSS_SITE,
            OTHER,
            Some(Error::CrossSiteResponse),
        ),
        ("a=1", CROSS_SITE, OTHER, Some(Error::CrossSiteResponse)),
        ("a=1; SameSite=None; Secure", CROSS_SITE, OTHER, None),
        (
            "a=1; SameSite=None",
            CROSS_SITE,
            OTHER,
            Some(Error::InsecureSameSiteNone),
        ),
        ("a=1; SameSite=Strict", CROSS_SITE, TOP_LEVEL, None),
        ("a=1", CROSS_SITE, NONE_BY_DEFAULT, None),
        ("a=1\u{1}", CROSS_SITE, OTHER, Some(Error::ControlCharacter)),
    ];
    for (set_cookie, page, context, error) in table {
        let mut store = CookieStore::new().unwrap();
        store.set_suffix_list("co.example\n").unwrap();
        let expected = error.map_or(Ok(StoreAction::Inserted), Err);
        let result = store.parse_for(set_cookie, URL, page, at(NOW), context);
        assert_eq!(result, expected, "{set_cookie} {page} {context:?}");
        assert_eq!(store.len(), usize::from(error.is_none()), "{set_cookie}");
    }
}

#[test]
fn pages_and_times_are_checked() {
    let mut store = filled(&["a=1"]);
    for (url, page, now, error) in [
        (PAGE, "no url", NOW, Error::BadUrl),
        (PAGE, "", NOW, Error::BadUrl),
        ("no url", PAGE, NOW, Error::BadUrl),
        ("no url", "no url", LAST + 1, Error::BadTime),
    ] {
        let header = store.cookie_header_for(url, page, at(now), OTHER);
        assert_eq!(header, Err(error), "{url} {page}");
        let result = store.parse_for("a=2", url, page, at(now), OTHER);
        assert_eq!(result, Err(error), "{url} {page}");
    }
}
