use std::time::Duration;

use pulleymaroon::{Cookie, CookieStore, Error, SameSite};

use crate::{assert_header, at, filled, FIRST, LAST, NOW, PAGE, SECURE_PAGE};

#[test]
fn cookies_have_their_same_site_attribute() {
    for (set_cookie, expected) in [
        ("a=1", None),
        ("a=1; SameSite=Strict", Some(SameSite::Strict)),
        ("a=1; samesite=LAX", Some(SameSite::Lax)),
        ("a=1; SameSite=None", Some(SameSite::None)),
        ("a=1; SameSite=other", None),
    ] {
        let cookies = filled(&[set_cookie]).cookies().unwrap();
        assert_eq!(cookies[0].same_site, expected, "{set_cookie}");
    }
}

/// Two cookies of one name, one of which has expired, and one of another name.
#[test]
fn cookies_are_found() {
    let store = filled(&["a=1; Path=/", "a=2; Max-Age=60", "gr\u{fc}n=3"]);
    for (domain, path, name, expected) in [
        ("a.example", "/", "a", Some("1")),
        ("a.example", "/d", "a", Some("2")),
        ("a.example", "/d", "gr\u{fc}n", Some("3")),
        ("a.example", "/", "gr\u{fc}n", None),
        ("a.example", "/d/", "a", None),
        ("b.a.example", "/", "a", None),
        (".a.example", "/", "a", None),
        ("a.example", "/", "A", None),
        ("a.example/", "", "a", None),
        ("", "", "", None),
    ] {
        let found = store.get(domain, path, name).unwrap();
        let key = |cookie: &Cookie| [&cookie.domain, &cookie.path, &cookie.name].map(String::clone);
        assert_eq!(
            found.as_ref().map(key),
            expected.map(|_| [domain, path, name].map(str::to_owned)),
            "{domain}{path} {name}"
        );
        assert_eq!(
            found.map(|cookie| cookie.value).as_deref(),
            expected,
            "{domain}{path} {name}"
        );
        assert_eq!(
            store.contains(domain, path, name),
            Ok(expected.is_some()),
            "{domain}{path} {name}"
        );
    }
    let expired = store.get("a.example", "/d", "a").unwrap().unwrap();
    assert!(!expired.is_expired(at(NOW + 59)));
    assert!(expired.is_expired(at(NOW + 60)));
    let session = store.get("a.example", "/", "a").unwrap().unwrap();
    assert!(!session.is_expired(at(LAST)));
    assert_eq!(CookieStore::new().unwrap().contains("", "", ""), Ok(false));
}

#[test]
fn an_iterator_has_the_cookies_of_its_time() {
    let mut store = filled(&["a=1", "b=2; Max-Age=1", "gr\u{fc}n=3; Max-Age=60", "c="]);
    let cookies = store.cookies().unwrap();
    let mut all = store.iter().unwrap();
    assert_eq!(format!("{all:?}"), "Iter { .. }");
    store.clear();
    for (place, cookie) in cookies.iter().enumerate() {
        assert_eq!(all.len(), cookies.len() - place);
        assert_eq!(all.next(), Some(Ok(cookie.clone())));
    }
    assert_eq!((all.len(), all.next(), all.next()), (0, None, None));
    assert_eq!(store.iter().unwrap().len(), 0);
}

/// The cookies of a request are those of its header, with their fields.
#[test]
fn cookies_of_a_request_are_in_the_order_of_the_header() {
    let mut store = filled(&["b=2; Path=/; HttpOnly", "gr\u{fc}n=1; Max-Age=60", "c=3"]);
    store.parse("s=4; Secure", SECURE_PAGE, at(NOW)).unwrap();
    for (url, now, expected) in [
        (PAGE, NOW, "gr\u{fc}n=1; c=3; b=2"),
        (PAGE, NOW + 60, "c=3; b=2"),
        (SECURE_PAGE, NOW, "gr\u{fc}n=1; c=3; s=4; b=2"),
        ("ftp://a.example/d/page", NOW, "gr\u{fc}n=1; c=3"),
        ("http://a.example/", NOW, "b=2"),
        ("http://b.example/", NOW, ""),
    ] {
        let cookies = store.cookies_for(url, at(now)).unwrap();
        let pairs: Vec<_> = cookies
            .iter()
            .map(|cookie| format!("{}={}", cookie.name, cookie.value))
            .collect();
        assert_eq!(pairs.join("; "), expected, "{url} at {now}");
        assert_header(&store, url, now, expected);
        for cookie in cookies {
            let stored = store.get(&cookie.domain, &cookie.path, &cookie.name);
            assert_eq!(stored, Ok(Some(cookie)));
        }
    }
    for (url, now, expected) in [
        ("no url", at(FIRST) - Duration::from_secs(1), Error::BadTime),
        ("no url", at(NOW), Error::BadUrl),
    ] {
        assert_eq!(store.cookies_for(url, now), Err(expected), "{url}");
    }
}

/// More rows than the first buffer has, and then also longer strings.
#[test]
fn many_cookies_of_a_request_are_whole() {
    let mut store = CookieStore::new().unwrap();
    for number in 0..200 {
        store.parse(&format!("n{number}=1"), PAGE, at(NOW)).unwrap();
        let cookies = store.cookies_for(PAGE, at(NOW)).unwrap();
        assert_eq!(cookies, store.cookies().unwrap());
    }
}
