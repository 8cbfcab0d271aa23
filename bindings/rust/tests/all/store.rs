use std::io::ErrorKind;
use std::num::NonZeroUsize;
use std::path::Path;
use std::{env, fs, process};

use pulleymaroon::{Cookie, CookieStore, Error, Format, StoreAction, Which, SYSTEM_SUFFIX_FILE};

use crate::{assert_header, at, filled, names, FIRST, LAST, NOW, PAGE, SECURE_PAGE};

/// The URL, the `Set-Cookie` header value, and what `parse` returns.
type Row<'a> = (&'a str, &'a str, Result<StoreAction, Error>);

const INSERTED: Result<StoreAction, Error> = Ok(StoreAction::Inserted);
const UPDATED: Result<StoreAction, Error> = Ok(StoreAction::UpdatedExisting);
const EXPIRED: Result<StoreAction, Error> = Ok(StoreAction::ExpiredExisting);

/// Received one after the other by one store, with a public suffix list of the one rule `example`.
const ROWS: [Row; 18] = [
    (PAGE, "a=1", INSERTED),
    (PAGE, "a=2", UPDATED),
    (PAGE, "a=3; Max-Age=0", EXPIRED),
    (PAGE, "new=1; Max-Age=0", Err(Error::Expired)),
    (PAGE, "h=1; HttpOnly", INSERTED),
    ("ftp://a.example/d/page", "h=2", Err(Error::NonHttpScheme)),
    (
        "ftp://a.example/d/page",
        "i=1; HttpOnly",
        Err(Error::NonHttpScheme),
    ),
    ("data:x", "a=1", Err(Error::NonRelativeScheme)),
    (PAGE, "a=1; Domain=b.example", Err(Error::DomainMismatch)),
    (PAGE, "no pair", Err(Error::Parse)),
    (PAGE, "", Err(Error::Parse)),
    (PAGE, "a=1; Domain=example", Err(Error::PublicSuffix)),
    ("http://example/", "a=1; Domain=example", INSERTED),
    (PAGE, "s=1; Secure", INSERTED),
    (PAGE, "__Host-p=1", INSERTED),
    ("no url", "a=1", Err(Error::BadUrl)),
    ("", "a=1", Err(Error::BadUrl)),
    ("", "", Err(Error::BadUrl)),
];

/// Received one after the other by one strict store.
const STRICT_ROWS: [Row; 15] = [
    (PAGE, "a=1", INSERTED),
    (PAGE, "c=\u{1}", Err(Error::ControlCharacter)),
    (PAGE, "s=1; Secure", Err(Error::InsecureUrl)),
    (
        SECURE_PAGE,
        "n=1; SameSite=None",
        Err(Error::InsecureSameSiteNone),
    ),
    (SECURE_PAGE, "__Host-p=1; Secure", Err(Error::Prefix)),
    (SECURE_PAGE, "s=1; Secure", INSERTED),
    (PAGE, "s=2", Err(Error::SecureStored)),
    (
        SECURE_PAGE,
        "d=1; Domain=a.example\u{a0}",
        Err(Error::DomainMismatch),
    ),
    (
        SECURE_PAGE,
        "d=1; Domain=. a.example",
        Err(Error::DomainMismatch),
    ),
    (
        SECURE_PAGE,
        "d=1; Domain=a.example; Domain=b.example",
        Err(Error::DomainMismatch),
    ),
    (SECURE_PAGE, "__Http-h=1; Secure", Err(Error::Prefix)),
    (SECURE_PAGE, "__Http-h=1; Secure; HttpOnly", INSERTED),
    (
        SECURE_PAGE,
        "__Host-Http-h=1; Secure; HttpOnly",
        Err(Error::Prefix),
    ),
    (
        SECURE_PAGE,
        "__Host-Http-h=1; Secure; HttpOnly; Path=/",
        INSERTED,
    ),
    ("http://a.localhost/", "s=1; Secure", INSERTED),
];

/// The header of a URL after a value was received from it, without and with the rules of browsers.
const READ: [(&str, &str, &str, &str); 6] = [
    (PAGE, "a=1\u{a0}", "a=1", "a=1\u{a0}"),
    (PAGE, "\u{3000}a=1", "a=1", "\u{3000}a=1"),
    (PAGE, "a=1; Max-Age=60; Max-Age=-", "", "a=1"),
    (PAGE, "a=1; Path=/d\u{a0}", "a=1", ""),
    ("http://a.localhost/", "a=1; Secure", "", "a=1"),
    ("http://localhost./", "a=1; Secure", "", "a=1"),
];

fn assert_rows(store: &mut CookieStore, rows: &[Row]) {
    for (url, set_cookie, expected) in rows {
        let result = store.parse(set_cookie, url, at(NOW));
        assert_eq!(result, *expected, "{set_cookie} from {url}");
        if let Err(error) = result {
            assert_eq!(error.is_rejection(), error != Error::BadUrl, "{error}");
        }
    }
}

/// One call for all header values of a response does what `parse` does for each.
#[test]
fn responses_are_received() {
    for rows in [&ROWS[..], &STRICT_ROWS] {
        let mut store = CookieStore::new().unwrap();
        let mut single = CookieStore::new().unwrap();
        for store in [&mut store, &mut single] {
            store.set_suffix_list("example\n").unwrap();
            store.set_strict(rows.len() == STRICT_ROWS.len());
        }
        let values: Vec<_> = rows.iter().map(|(_, set_cookie, _)| *set_cookie).collect();
        let expected: Vec<_> = values
            .iter()
            .map(|value| single.parse(value, SECURE_PAGE, at(NOW)))
            .collect();
        assert_eq!(store.receive(&values, SECURE_PAGE, at(NOW)), Ok(expected));
        assert_eq!(store.cookies(), single.cookies());
    }
}

#[test]
fn responses_have_errors() {
    let mut store = CookieStore::new().unwrap();
    let values: [&[u8]; 3] = [b"a=1", b"b=\xff", b""];
    for (url, now, expected) in [
        ("no url", NOW, Error::BadUrl),
        ("no url", LAST + 1, Error::BadTime),
        (PAGE, FIRST - 1, Error::BadTime),
    ] {
        assert_eq!(store.receive(values, url, at(now)), Err(expected), "{url}");
    }
    assert!(store.is_empty());
    let expected = vec![INSERTED, Err(Error::NotUtf8), Err(Error::Parse)];
    assert_eq!(store.receive(values, PAGE, at(NOW)), Ok(expected));
    assert_eq!(store.receive([""; 0], PAGE, at(NOW)), Ok(vec![]));
    assert_header(&store, PAGE, NOW, "a=1");
}

#[test]
fn cookies_are_parsed() {
    let mut store = CookieStore::new().unwrap();
    store.set_suffix_list("// a comment\nexample\n").unwrap();
    assert_rows(&mut store, &ROWS);
    assert_header(&store, PAGE, NOW, "h=1; __Host-p=1");
}

#[test]
fn a_strict_store_rejects_more() {
    let mut store = CookieStore::new().unwrap();
    store.set_strict(true);
    assert_rows(&mut store, &STRICT_ROWS);
    let [fits, too_long] = [4095, 4096].map(|length| format!("l={}", "v".repeat(length)));
    let rows = [
        (PAGE, fits.as_str(), INSERTED),
        (PAGE, &too_long, Err(Error::TooLong)),
    ];
    assert_rows(&mut store, &rows);
    store.set_strict(false);
    assert_eq!(store.parse("s=2", PAGE, at(NOW)), UPDATED);
}

#[test]
fn a_strict_store_reads_as_browsers_do() {
    for (url, set_cookie, plain, strict) in READ {
        for (is_strict, expected) in [(false, plain), (true, strict)] {
            let mut store = CookieStore::new().unwrap();
            store.set_strict(is_strict);
            let result = store.parse(set_cookie, url, at(NOW));
            assert!(
                matches!(result, INSERTED | Err(Error::Expired)),
                "{set_cookie}"
            );
            assert_header(&store, url, NOW, expected);
        }
    }
}

#[test]
fn a_strict_store_keeps_secure_cookies_and_sites() {
    let mut store = CookieStore::new().unwrap();
    store.set_strict(true);
    store.set_domain_limit(NonZeroUsize::new(1).unwrap());
    store.set_suffix_list("example\ns3.b.example\n").unwrap();
    let rows = [
        (SECURE_PAGE, "s=1; Secure", INSERTED),
        (PAGE, "n=1", Err(Error::SecureLimit)),
        (SECURE_PAGE, "n=1", Err(Error::SecureLimit)),
        (
            "https://c.s3.b.example/",
            "n=1; Domain=b.example",
            Err(Error::PublicSuffix),
        ),
        (
            "https://c.s3.b.example/",
            "n=1; Domain=c.s3.b.example",
            INSERTED,
        ),
    ];
    assert_rows(&mut store, &rows);
}

#[test]
fn times_are_checked() {
    let mut store = filled(&["a=1"]);
    for (now, expected) in [
        (FIRST, Ok(1)),
        (LAST, Ok(1)),
        (FIRST - 1, Err(())),
        (LAST + 1, Err(())),
    ] {
        let value = expected
            .map(|_| Some("a=1".to_owned()))
            .map_err(|()| Error::BadTime);
        assert_eq!(store.cookie_header(PAGE, at(now)), value, "{now}");
        let removed = expected.map(|_| 0).map_err(|()| Error::BadTime);
        assert_eq!(store.remove_expired(at(now)), removed, "{now}");
    }
    for now in [i64::MIN + 1, FIRST - 1, LAST + 1, i64::MAX] {
        assert_eq!(
            store.parse("b=1", PAGE, at(now)),
            Err(Error::BadTime),
            "{now}"
        );
        assert_eq!(
            store.to_text(Format::Json, Which::All, at(now)),
            Err(Error::BadTime),
            "{now}"
        );
        assert_eq!(
            CookieStore::from_text("[]", Format::Json, Which::All, at(now)).unwrap_err(),
            Error::BadTime,
            "{now}"
        );
    }
    assert_eq!(names(&store), "a");
}

#[test]
fn cookies_expire_before_1970_too() {
    let mut store = CookieStore::new().unwrap();
    assert_eq!(store.parse("a=1; Max-Age=10", PAGE, at(-60)), INSERTED);
    assert_eq!(store.cookies().unwrap()[0].expires, Some(at(-50)));
    assert_header(&store, PAGE, -51, "a=1");
    assert_header(&store, PAGE, -50, "");
}

fn fields(cookie: &Cookie) -> (&str, &str, &str, &str, Option<i64>, [bool; 4]) {
    let flags = [
        cookie.host_only,
        cookie.has_path,
        cookie.secure,
        cookie.http_only,
    ];
    let expires = cookie
        .expires
        .map(|time| time.duration_since(at(NOW)).unwrap().as_secs() as i64);
    (
        &cookie.domain,
        &cookie.path,
        &cookie.name,
        &cookie.value,
        expires,
        flags,
    )
}

#[test]
fn cookies_have_all_fields() {
    let mut store = filled(&[
        "a=1",
        "g=gr\u{fc}n; Domain=.A.example; Path=/; Max-Age=60; Secure; HttpOnly",
    ]);
    store
        .parse("b=; Expires=Thu, 01 Jan 2026 00:00:05 GMT", PAGE, at(NOW))
        .unwrap();
    let cookies = store.cookies().unwrap();
    let expected = [
        (
            "a.example",
            "/d",
            "a",
            "1",
            None,
            [true, false, false, false],
        ),
        (
            "a.example",
            "/d",
            "b",
            "",
            Some(5),
            [true, false, false, false],
        ),
        (
            "a.example",
            "/",
            "g",
            "gr\u{fc}n",
            Some(60),
            [false, true, true, true],
        ),
    ];
    assert_eq!(cookies.iter().map(fields).collect::<Vec<_>>(), expected);
    assert_header(&store, SECURE_PAGE, NOW + 4, "a=1; b=; g=gr\u{fc}n");
    assert_header(&store, SECURE_PAGE, NOW + 5, "a=1; g=gr\u{fc}n");
    assert_header(&store, "https://b.a.example/", NOW, "g=gr\u{fc}n");
    assert_header(&store, "http://b.a.example/", NOW, "");
}

#[test]
fn a_limit_evicts_the_first() {
    let mut store = CookieStore::new().unwrap();
    store.set_domain_limit(NonZeroUsize::new(2).unwrap());
    for set_cookie in ["a=1", "b=2", "a=3", "c=4"] {
        store.parse(set_cookie, PAGE, at(NOW)).unwrap();
    }
    assert_header(&store, PAGE, NOW, "b=2; c=4");
}

#[test]
fn limit_and_strictness_are_read() {
    let mut store = CookieStore::new().unwrap();
    assert_eq!((store.domain_limit(), store.is_strict()), (None, false));
    for (limit, strict) in [(1, true), (2, false), (usize::MAX, true)] {
        let limit = NonZeroUsize::new(limit).unwrap();
        store.set_domain_limit(limit);
        store.set_strict(strict);
        store.clear();
        assert_eq!(
            (store.domain_limit(), store.is_strict()),
            (Some(limit), strict)
        );
    }
    let list = store.to_text(Format::Json, Which::All, at(NOW)).unwrap();
    let copy = CookieStore::from_text(&list, Format::Json, Which::All, at(NOW)).unwrap();
    assert_eq!((copy.domain_limit(), copy.is_strict()), (None, false));
}

#[test]
fn what_is_no_list_is_an_error() {
    let html = "\n<!DOCTYPE html>\n<html></html>\n";
    let table = [
        ("example\na..b\n", Error::BadRule { line: 2 }),
        (html, Error::BadRule { line: 2 }),
        (r#"{"error": 1}"#, Error::BadRule { line: 1 }),
        (SYSTEM_SUFFIX_FILE, Error::BadRule { line: 1 }),
        ("", Error::NoRules),
        ("// a comment\n\n", Error::NoRules),
    ];
    for (list, expected) in table {
        let mut store = CookieStore::new().unwrap();
        assert_eq!(store.set_suffix_list(list), Err(expected), "{list}");
        assert_eq!(
            store.set_only_listed_suffixes(list),
            Err(expected),
            "{list}"
        );
        assert_eq!(store.parse("a=1; Domain=example", PAGE, at(NOW)), INSERTED);
    }
    assert_eq!(
        Error::BadRule { line: 2 }.to_string(),
        "a line of the list is not a rule (line 2)"
    );
}

/// Returns which of some domains are no public suffixes.
fn no_suffixes(store: &mut CookieStore) -> Vec<&'static str> {
    let mut domains = vec!["shop.co.uk", "co.uk", "shop.np", "np"];
    domains.retain(|domain| {
        let url = format!("http://deep.{domain}/");
        let result = store.parse(&format!("a=1; Domain={domain}"), &url, at(NOW));
        assert!(
            result == INSERTED || result == Err(Error::PublicSuffix),
            "{domain}"
        );
        result == INSERTED
    });
    domains
}

#[test]
fn top_level_domains_are_suffixes_unless_only_listed_ones_are() {
    let list = "uk\nco.uk\n";
    let mut store = CookieStore::new().unwrap();
    assert_eq!(
        no_suffixes(&mut store),
        ["shop.co.uk", "co.uk", "shop.np", "np"]
    );
    let mut store = CookieStore::new().unwrap();
    store.set_suffix_list(list).unwrap();
    assert_eq!(no_suffixes(&mut store), ["shop.co.uk", "shop.np"]);
    let mut store = CookieStore::new().unwrap();
    store.set_only_listed_suffixes(list).unwrap();
    assert_eq!(no_suffixes(&mut store), ["shop.co.uk", "shop.np", "np"]);
}

#[test]
fn a_file_is_a_list() {
    let file = env::temp_dir().join(format!("pulleymaroon-{}.dat", process::id()));
    let use_file = |content: &[u8]| {
        fs::write(&file, content).unwrap();
        let mut store = CookieStore::new().unwrap();
        let result = store.set_suffix_file(&file);
        fs::remove_file(&file).unwrap();
        result.map(|()| store)
    };
    let mut store = use_file(b"uk\nco.uk\n").unwrap();
    assert_eq!(no_suffixes(&mut store), ["shop.co.uk", "shop.np"]);
    let table: [(&[u8], Error); 3] = [
        (b"\xff", Error::NotUtf8),
        (b"", Error::NoRules),
        (b"<html>", Error::BadRule { line: 1 }),
    ];
    for (content, expected) in table {
        let error = use_file(content).unwrap_err();
        assert_eq!(error.kind(), ErrorKind::InvalidData);
        let inner = error.get_ref().and_then(|inner| inner.downcast_ref());
        assert_eq!(inner, Some(&expected));
    }
    let error = CookieStore::new()
        .unwrap()
        .set_suffix_file(&file)
        .unwrap_err();
    assert_eq!(error.kind(), ErrorKind::NotFound);
    if Path::new(SYSTEM_SUFFIX_FILE).exists() {
        let mut store = CookieStore::new().unwrap();
        store.set_suffix_file(SYSTEM_SUFFIX_FILE).unwrap();
        assert_eq!(no_suffixes(&mut store), ["shop.co.uk"]);
    }
}

/// URLs from which some parsers read one host and some another.
#[test]
fn ambiguous_urls_are_not_valid() {
    let mut store = filled(&["a=1"]);
    for url in [
        r"http://a.example\@b.example/d/",
        r"http://b.example\@a.example/d/",
        r"http:\\a.example/d/",
        "http:a.example/d/",
        "http:80",
        "http://127.1./",
        "http://a.example\t/d/",
        " http://a.example/d/",
        "http://a%2eexample/d/",
        "http://web.1/",
        "http://1.2.3.300/",
        "http://[fe80::1%25eth0]/",
    ] {
        assert_eq!(
            store.cookie_header(url, at(NOW)),
            Err(Error::BadUrl),
            "{url}"
        );
        assert_eq!(
            store.parse("b=1", url, at(NOW)),
            Err(Error::BadUrl),
            "{url}"
        );
    }
    for url in [
        "http://b.example@a.example/d/",
        "http://a.example:80/d/",
        "http://A.EXAMPLE/d/",
    ] {
        assert_header(&store, url, NOW, "a=1");
    }
}

#[test]
fn cookies_are_removed() {
    let mut store = filled(&[
        "a=1; Max-Age=60",
        "s=2",
        "b=3; Max-Age=60",
        "c=4; Max-Age=61",
    ]);
    assert_eq!(store.remove_expired(at(NOW + 59)), Ok(0));
    assert_eq!(store.remove_expired(at(NOW + 60)), Ok(2));
    assert_eq!(names(&store), "sc");
    assert!(!store.remove("a.example", "/d", ""));
    assert!(store.remove("a.example", "/d", "s"));
    assert!(!store.remove("a.example", "/d", "s"));
    assert_eq!((store.len(), store.is_empty()), (1, false));
    assert_eq!(store.remove_domain("example"), 0);
    assert_eq!(store.remove_domain("a.example"), 1);
    assert!(store.is_empty());
    store.clear();
    assert_eq!(
        (store.len(), store.is_empty(), store.cookies()),
        (0, true, Ok(vec![]))
    );
}

/// Results that are longer than the first buffer.
#[test]
fn long_results_are_whole() {
    let value = "v".repeat(100);
    let mut store = CookieStore::new().unwrap();
    let pairs: Vec<_> = (0..100)
        .map(|number| format!("c{number}={value}"))
        .collect();
    for pair in &pairs {
        store.parse(pair, PAGE, at(NOW)).unwrap();
    }
    assert_header(&store, PAGE, NOW, &pairs.join("; "));
    let cookies = store.cookies().unwrap();
    let stored: Vec<_> = cookies
        .iter()
        .map(|cookie| format!("{}={}", cookie.name, cookie.value))
        .collect();
    assert_eq!(stored, pairs);
}

#[test]
fn stores_are_merged() {
    let mut store = filled(&["a=1; Path=/x", "b=2; Path=/x"]);
    let other = filled(&["b=3; Path=/x", "__Host-c=4", "d=5; Path=/x"]);
    assert_eq!(store.merge(&other, at(NOW)), Ok(0));
    assert_header(&store, "http://a.example/x", NOW, "a=1; b=3; d=5");
    store.set_strict(true);
    store.clear();
    assert_eq!(store.merge(&other, at(NOW)), Ok(1));
    assert_eq!(names(&store), "bd");
    assert_eq!(other.len(), 3);
}

/// A copy has all that its original has, and the two are independent.
#[test]
fn copies_are_whole() {
    let mut store = filled(&["a=1; Path=/x", "b=2; Path=/y", "c=3; Path=/x"]);
    store
        .parse("n=1; SameSite=None", "http://b.example/", at(NOW))
        .unwrap();
    store.parse("old=1; Max-Age=1", PAGE, at(FIRST)).unwrap();
    store.set_suffix_list("example\n").unwrap();
    store.set_domain_limit(NonZeroUsize::new(2).unwrap());
    for (strict, copy) in [true, false].map(|strict| {
        store.set_strict(strict);
        (strict, store.clone())
    }) {
        assert_eq!(copy.is_strict(), strict);
        assert_eq!(copy.domain_limit(), store.domain_limit());
        assert_eq!(copy.cookies(), store.cookies());
    }
    let mut copy = store.try_clone().unwrap();
    let error = copy
        .parse("a=1; Domain=example", PAGE, at(NOW))
        .unwrap_err();
    assert_eq!(error, Error::PublicSuffix);
    // The limit evicts in creation order, which is not that of the store.
    for one in [&mut copy, &mut store] {
        one.parse("d=4; Path=/z", PAGE, at(NOW)).unwrap();
        assert_eq!(names(one), "cdn");
    }
    copy.clear();
    assert_eq!((copy.len(), store.len()), (0, 3));
    drop(store);
    copy.parse("e=5", PAGE, at(NOW)).unwrap();
    assert_header(&copy, PAGE, NOW, "e=5");
}

#[test]
fn debug_shows_no_value() {
    let shown = format!("{:?}", filled(&["session=secret"]));
    assert_eq!(shown, "CookieStore { .. }");
}
