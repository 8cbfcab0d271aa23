//! `CookieStore::insert`: tables of the parts of a cookie, with what it returns, or what is then sent.

use std::slice;

use pulleymaroon::{Cookie, CookieStore, Error, SameSite, StoreAction};

use crate::{assert_header, at, FIRST, LAST, NOW};

type Change = fn(&mut Cookie);

/// Returns a cookie of a.example with this change.
fn changed(change: Change) -> Cookie {
    let mut cookie = Cookie::new("a", "1", "a.example");
    change(&mut cookie);
    cookie
}

/// Each in a store of its own: the change, a URL, and the header that is sent to it.
#[test]
fn inserted_cookies_come_back_and_are_sent() {
    let table: [(Change, &str, &str); 7] = [
        (|_| (), "http://b.a.example/", "a=1"),
        (|cookie| cookie.host_only = true, "http://b.a.example/", ""),
        (|cookie| cookie.host_only = true, "http://a.example/", "a=1"),
        (|cookie| cookie.secure = true, "http://a.example/", ""),
        (|cookie| cookie.http_only = true, "ftp://a.example/", ""),
        (
            |cookie| cookie.expires = Some(at(NOW + 1)),
            "http://a.example/",
            "a=1",
        ),
        (
            |cookie| {
                *cookie = Cookie::new("gr\u{fc}n", "a=1", "[::1]");
                cookie.path = "/d".into();
                cookie.has_path = false;
                cookie.expires = Some(at(LAST));
                cookie.same_site = Some(SameSite::Strict);
            },
            "http://[::1]/d/x",
            "gr\u{fc}n=a=1",
        ),
    ];
    for (change, url, expected) in table {
        let mut store = CookieStore::new().unwrap();
        let cookie = changed(change);
        let action = store.insert(&cookie, at(NOW));
        assert_eq!(action, Ok(StoreAction::Inserted), "{cookie:?}");
        let stored = store.cookies().unwrap();
        assert_eq!(stored, slice::from_ref(&cookie));
        assert_header(&store, url, NOW, expected);
    }
}

/// One after the other in one store, with what a store returns that is not strict, and a strict one.
#[test]
fn parts_are_checked() {
    let [inserted, updated, expired] = [
        StoreAction::Inserted,
        StoreAction::UpdatedExisting,
        StoreAction::ExpiredExisting,
    ]
    .map(Ok);
    let both = |result: Result<StoreAction, Error>| (result, result);
    let table: [(Change, _); 17] = [
        (
            |cookie| cookie.expires = Some(at(NOW)),
            both(Err(Error::Expired)),
        ),
        (|_| (), both(inserted)),
        (
            |cookie| cookie.same_site = Some(SameSite::Lax),
            both(updated),
        ),
        (|cookie| cookie.expires = Some(at(FIRST)), both(expired)),
        (|cookie| cookie.name.clear(), both(Err(Error::Parse))),
        (|cookie| cookie.name = "a;b".into(), both(Err(Error::Parse))),
        (|cookie| cookie.value = "1 ".into(), both(Err(Error::Parse))),
        (|cookie| cookie.path = "d".into(), both(Err(Error::Parse))),
        (
            |cookie| cookie.domain.clear(),
            both(Err(Error::DomainMismatch)),
        ),
        (
            |cookie| cookie.domain.insert(0, '.'),
            both(Err(Error::DomainMismatch)),
        ),
        (
            |cookie| cookie.domain = "A.example".into(),
            both(Err(Error::DomainMismatch)),
        ),
        (
            |cookie| cookie.expires = Some(at(LAST + 1)),
            both(Err(Error::BadTime)),
        ),
        (
            |cookie| cookie.name = "t\u{1}".into(),
            (inserted, Err(Error::ControlCharacter)),
        ),
        (
            |cookie| cookie.value = "v".repeat(4096),
            (updated, Err(Error::TooLong)),
        ),
        (
            |cookie| {
                cookie.name = "n".into();
                cookie.same_site = Some(SameSite::None);
            },
            (inserted, Err(Error::InsecureSameSiteNone)),
        ),
        (
            |cookie| {
                cookie.name = "__Host-p".into();
                cookie.secure = true;
            },
            (inserted, Err(Error::Prefix)),
        ),
        (
            |cookie| {
                cookie.name = "__Host-h".into();
                (cookie.secure, cookie.host_only) = (true, true);
            },
            both(inserted),
        ),
    ];
    for is_strict in [false, true] {
        let mut store = CookieStore::new().unwrap();
        store.set_strict(is_strict);
        for (change, (plain, strict)) in table {
            let cookie = changed(change);
            let expected = if is_strict { strict } else { plain };
            assert_eq!(store.insert(&cookie, at(NOW)), expected, "{cookie:?}");
        }
        let late = store.insert(&changed(|_| ()), at(LAST + 1));
        assert_eq!(late, Err(Error::BadTime));
    }
}

#[test]
fn a_domain_cookie_of_a_public_suffix_becomes_host_only() {
    let mut store = CookieStore::new().unwrap();
    store.set_suffix_list("example").unwrap();
    let cookie = Cookie::new("a", "1", "example");
    assert_eq!(store.insert(&cookie, at(NOW)), Ok(StoreAction::Inserted));
    assert!(store.cookies().unwrap()[0].host_only);
}
