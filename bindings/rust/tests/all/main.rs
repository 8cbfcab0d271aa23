//! Tests of the crate over the installed library.

use std::time::{Duration, SystemTime, UNIX_EPOCH};

use pulleymaroon::CookieStore;

mod cookies;
mod header;
mod insert;
mod roots;
mod saved;
mod sites;
mod store;
mod threads;

const PAGE: &str = "http://a.example/d/page";
const SECURE_PAGE: &str = "https://a.example/d/page";
const NOW: i64 = 1_767_225_600; // 2026-01-01T00:00:00
const FIRST: i64 = -377_705_116_800; // the year -9999
const LAST: i64 = 253_402_300_799; // the end of the year 9999

/// Returns the time at a number of seconds since 1970.
fn at(seconds: i64) -> SystemTime {
    let distance = Duration::from_secs(seconds.unsigned_abs());
    if seconds < 0 {
        UNIX_EPOCH - distance
    } else {
        UNIX_EPOCH + distance
    }
}

/// Returns a store with these cookies, received from PAGE at NOW.
fn filled(set_cookies: &[&str]) -> CookieStore {
    let mut store = CookieStore::new().unwrap();
    for set_cookie in set_cookies {
        store.parse(set_cookie, PAGE, at(NOW)).unwrap();
    }
    store
}

/// Returns the names of the stored cookies, one after the other.
fn names(store: &CookieStore) -> String {
    let cookies = store.cookies().unwrap();
    cookies.iter().map(|cookie| cookie.name.as_str()).collect()
}

/// Asserts the Cookie header of a request for `url`; an empty one stands for none.
fn assert_header(store: &CookieStore, url: &str, now: i64, expected: &str) {
    let header = store.cookie_header(url, at(now)).unwrap();
    let expected = Some(expected).filter(|header| !header.is_empty());
    assert_eq!(header.as_deref(), expected, "{url} at {now}");
}
