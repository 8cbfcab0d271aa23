//! Tests of the provider by the calls that reqwest makes. `examples/fetch.rs` is tested as a client.

use std::panic::{self, AssertUnwindSafe};
use std::sync::{Arc, Mutex, Weak};
use std::time::SystemTime;

use pulleymaroon::{CookieStore, Format, Which};
use pulleymaroon_reqwest::SharedStore;
use reqwest::cookie::CookieStore as _;
use reqwest::header::HeaderValue;
use reqwest::Url;

const PAGE: &str = "http://a.example/d/page";

fn url(text: &str) -> Url {
    Url::parse(text).unwrap()
}

/// Returns the Cookie header of a request for PAGE, or an empty one.
fn header(store: &SharedStore) -> HeaderValue {
    let header = store.cookies(&url(PAGE));
    header.unwrap_or(HeaderValue::from_static(""))
}

fn receive(store: &SharedStore, set_cookies: &[&[u8]]) {
    let values: Vec<_> = set_cookies
        .iter()
        .map(|value| HeaderValue::from_bytes(value).unwrap())
        .collect();
    store.set_cookies(&mut values.iter(), &url(PAGE));
}

#[test]
fn rejected_cookies_are_ignored() {
    let store = SharedStore::new(CookieStore::new().unwrap());
    let values: [&[u8]; 6] = [
        b"a=1",
        b"no pair",
        b"b=1; Domain=b.example",
        b"c=\xff",
        b"s=1; Secure",
        "d=gr\u{fc}n".as_bytes(),
    ];
    receive(&store, &values);
    assert_eq!(header(&store), "a=1; d=gr\u{fc}n".as_bytes());
    assert_eq!(
        store.cookies(&url("https://a.example/d/x")).unwrap(),
        "a=1; s=1; d=gr\u{fc}n".as_bytes()
    );
    for other in ["http://a.example/", "http://b.example/d/page", "data:x"] {
        assert_eq!(store.cookies(&url(other)), None, "{other}");
    }
    assert_eq!(store.into_inner().len(), 3);
}

#[test]
fn cookies_expire_by_the_clock() {
    let store = SharedStore::new(CookieStore::new().unwrap());
    receive(
        &store,
        &[
            b"a=1; Max-Age=3600",
            b"b=1; Max-Age=0",
            b"c=1; Expires=Wed, 01 Jan 2020 00:00:00 GMT",
        ],
    );
    assert_eq!(header(&store), "a=1");
}

/// Returns a store that notes what it drops, and the number of stored cookies then.
fn noting(store: CookieStore) -> (Arc<SharedStore>, Arc<Mutex<Vec<String>>>) {
    let notes: Arc<Mutex<Vec<String>>> = Arc::default();
    let noted = notes.clone();
    let store = Arc::new_cyclic(|itself: &Weak<SharedStore>| {
        let itself = itself.clone();
        SharedStore::new(store).on_dropped(move |dropped| {
            // The store is not locked: this would wait for ever.
            let stored = itself.upgrade().unwrap().lock().len();
            noted.lock().unwrap().push(format!("{dropped} ({stored})"));
        })
    });
    (store, notes)
}

/// What is dropped is reported, without values.
#[test]
fn dropped_cookies_are_reported() {
    let (store, notes) = noting(CookieStore::new().unwrap());
    let values: [&[u8]; 8] = [
        b"a=value",
        b"value; Path=/",
        b"=value",
        b"b = value; Domain=b.example",
        b"c=value; d=\xff",
        b"n\xffme=value",
        b"value\xff",
        b"e=; Max-Age=0",
    ];
    receive(&store, &values);
    store.set_cookies(
        &mut [HeaderValue::from_static("o=value")].iter(),
        &url("data:value"),
    );
    let values: [&[u8]; 2] = [b"p=\xff", b"q=value"];
    let values = values.map(|value| HeaderValue::from_bytes(value).unwrap());
    store.set_cookies(&mut values.iter(), &url("data:not a URL"));
    let expected = [
        r#"a.example: cookie "": not a cookie (1)"#,
        r#"a.example: cookie "": not a cookie (1)"#,
        r#"a.example: cookie "b": the host does not match the cookie's domain (1)"#,
        r#"a.example: cookie "c": not UTF-8 (1)"#,
        "a.example: cookie \"n\u{fffd}me\": not UTF-8 (1)",
        r#"a.example: cookie "": not UTF-8 (1)"#,
        r#"a.example: cookie "e": the cookie has expired (1)"#,
        r#": cookie "o": no Domain attribute, and no host in the URL (1)"#,
        r#": cookie "p": not UTF-8 (1)"#,
        r#": cookie "q": not a valid URL (1)"#,
    ];
    assert_eq!(*notes.lock().unwrap(), expected);
    assert_eq!(store.cookies(&url("data:value")), None);
    assert_eq!(header(&store), "a=value");
    assert_eq!(notes.lock().unwrap().len(), expected.len());
    assert_eq!(store.cookies(&url("data:not a URL")), None);
    assert_eq!(
        notes.lock().unwrap().last().unwrap(),
        r#": cookie "": not a valid URL (1)"#
    );
}

#[test]
fn debug_shows_no_cookies() {
    let store = SharedStore::new(CookieStore::new().unwrap());
    receive(&store, &[b"session=secret"]);
    assert_eq!(format!("{store:?}"), "SharedStore { .. }");
}

/// A WebSocket handshake is HTTP.
#[test]
fn web_sockets_have_the_cookies_of_http() {
    let mut store = CookieStore::new().unwrap();
    store.set_strict(true);
    let store = SharedStore::new(store);
    let receive = |page: &str, set_cookie| {
        let value = HeaderValue::from_static(set_cookie);
        store.set_cookies(&mut [value].iter(), &url(page));
    };
    receive("https://a.example/", "secure=1; Secure; HttpOnly");
    receive("http://a.example/", "plain=2; HttpOnly");
    receive("wss://a.example/", "__Host-b=3; Secure; HttpOnly; Path=/");
    receive("ws://a.example/", "a=4; HttpOnly");
    receive("ws://a.example/", "c=5; Secure");
    let (plain, all) = ("plain=2; a=4", "secure=1; plain=2; __Host-b=3; a=4");
    for (scheme, expected) in [
        ("ws", Some(plain)),
        ("http", Some(plain)),
        ("wss", Some(all)),
        ("https", Some(all)),
        ("ftp", None),
        ("wsss", None),
    ] {
        let header = store.cookies(&url(&format!("{scheme}://a.example/ws?wss")));
        let expected = expected.map(HeaderValue::from_static);
        assert_eq!(header, expected, "{scheme}");
    }
}

/// A loaded list may have what a header must not have.
#[test]
fn control_characters_are_not_sent() {
    let cookies = [
        "first=1",
        r"crlf=1\r\nX: y",
        r"lf=1\n2",
        r"nul=1\u0000",
        r"us=1\u001f",
        r"del=1\u007f",
        r"na\r\nX: me=1",
        r"tab=1\t2",
        "last=\u{e9}",
    ];
    let list = cookies.map(|cookie| {
        format!(
            r#"{{"raw_cookie":"{cookie}; Path=/","path":["/",true],"domain":{{"HostOnly":"a.example"}},"expires":"SessionEnd"}}"#
        )
    });
    let list = format!("[{}]", list.join(","));
    let store = CookieStore::from_text(&list, Format::Json, Which::All, SystemTime::now()).unwrap();
    let (store, notes) = noting(store);
    assert_eq!(header(&store), "first=1; tab=1\t2; last=\u{e9}".as_bytes());
    let names = ["crlf", "lf", "nul", "us", "del", r"na\r\nX: me"];
    let expected = names.map(|name| {
        format!("a.example: cookie \"{name}\": a control character in the header value (9)")
    });
    assert_eq!(*notes.lock().unwrap(), expected);
    // The plain call returns names and values as they are.
    let exact = store.lock().cookie_header(PAGE, SystemTime::now());
    assert!(exact.unwrap().unwrap().contains("crlf=1\r\nX: y"));
}

#[test]
fn a_panic_with_the_lock_does_no_harm() {
    let store = SharedStore::new(CookieStore::new().unwrap());
    receive(&store, &[b"a=1"]);
    let panicked = panic::catch_unwind(AssertUnwindSafe(|| {
        let _store = store.lock();
        panic!("with the lock");
    }));
    assert!(panicked.is_err());
    receive(&store, &[b"b=2"]);
    assert_eq!(header(&store), "a=1; b=2");
    assert_eq!(store.into_inner().len(), 2);
}

#[test]
fn the_readme_quotes_the_example() {
    let example = include_str!("../examples/fetch.rs");
    let readme = include_str!("../../README.md");
    assert!(readme.contains(&format!("```rust,ignore\n{example}```\n")));
}
