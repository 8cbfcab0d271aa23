use pulleymaroon::{CookieStore, Error, Format, Which};

use crate::{at, filled, names, FIRST, NOW, PAGE};

const FORMATS: [Format; 3] = [Format::Json, Format::Ron, Format::Netscape];

/// Persistent cookies that expire one after the other, and two session cookies.
#[test]
fn what_is_saved_is_loaded() {
    let mut store = filled(&[
        "a=1; Max-Age=60; Path=/",
        "b=gr\u{fc}n; Path=/; HttpOnly",
        "c=3; Max-Age=90; Path=/",
    ]);
    store
        .parse("d=; Domain=a.example; Path=/", PAGE, at(NOW))
        .unwrap();
    // The time and the cookies of saving and of loading, and the names of the cookies that are loaded.
    let table = [
        (NOW, Which::All, NOW, Which::All, "abcd"),
        (NOW + 60, Which::All, NOW + 60, Which::All, "abcd"),
        (NOW, Which::Unexpired, NOW, Which::All, "abcd"),
        (NOW + 60, Which::Unexpired, NOW, Which::All, "bcd"),
        (NOW, Which::Persistent, NOW, Which::All, "ac"),
        (NOW + 60, Which::Persistent, NOW, Which::All, "c"),
        (NOW, Which::All, NOW + 60, Which::Unexpired, "bcd"),
        (NOW, Which::All, NOW, Which::Persistent, "ac"),
        (NOW, Which::All, NOW + 60, Which::Persistent, "c"),
    ];
    for format in FORMATS {
        for (saved, save, loaded, load, expected) in table {
            let list = store.to_text(format, save, at(saved)).unwrap();
            let copy = CookieStore::from_text(&list, format, load, at(loaded)).unwrap();
            assert_eq!(
                names(&copy),
                expected,
                "{format:?}: {save:?} at {saved}, {load:?} at {loaded}"
            );
        }
        let list = store.to_text(format, Which::All, at(NOW)).unwrap();
        let copy = CookieStore::from_text(&list, format, Which::All, at(NOW)).unwrap();
        assert_eq!(copy.cookies(), store.cookies(), "{format:?}");
    }
}

/// A list that is longer than the first buffer.
#[test]
fn long_lists_are_whole() {
    let store = filled(&[&format!("a={}; Path=/", "v".repeat(5000))]);
    for format in FORMATS {
        let list = store.to_text(format, Which::All, at(NOW)).unwrap();
        let copy = CookieStore::from_text(&list, format, Which::All, at(NOW)).unwrap();
        assert_eq!(copy.cookies(), store.cookies(), "{format:?}");
    }
}

#[test]
fn bad_lists_are_not_loaded() {
    let json = |cookie: &str, expires: &str| {
        format!(
            r#"[{{"raw_cookie":"{cookie}","path":["/",false],"domain":{{"HostOnly":"a.example"}},"expires":{expires}}}]"#
        )
    };
    let ron = |cookie: &str, expires: &str| {
        format!(
            r#"[(raw_cookie: "{cookie}", path: ("/", false), domain: HostOnly("a.example"), expires: {expires})]"#
        )
    };
    let line = "a.example\tFALSE\t/\tFALSE\t0\ta\t1\n";
    let table = [
        (Format::Json, "[".to_owned(), Error::BadJson),
        (Format::Json, String::new(), Error::BadJson),
        (Format::Json, "{}".to_owned(), Error::BadShape),
        (
            Format::Json,
            json("a=1", r#"{"AtUtc":"soon"}"#),
            Error::BadExpiry,
        ),
        (Format::Json, json("a", r#""SessionEnd""#), Error::Parse),
        (Format::Ron, "{}".to_owned(), Error::BadRon),
        (
            Format::Ron,
            ron("a=1", r#"AtUtc("soon")"#),
            Error::BadExpiry,
        ),
        (Format::Ron, ron("a", "SessionEnd"), Error::Parse),
        (
            Format::Netscape,
            format!("# comment\n{line}a=1\na=1\n"),
            Error::BadLine { line: 3 },
        ),
    ];
    for (format, list, expected) in table {
        let error = CookieStore::from_text(&list, format, Which::All, at(NOW)).unwrap_err();
        assert_eq!(error, expected, "{format:?}: {list}");
    }
    let store = CookieStore::from_text(line, Format::Netscape, Which::All, at(NOW)).unwrap();
    assert_eq!(names(&store), "a");
}

#[test]
fn what_a_format_cannot_represent_is_not_saved() {
    let mut store = CookieStore::new().unwrap();
    store.parse("a=1; Max-Age=1", PAGE, at(FIRST)).unwrap();
    let errors = FORMATS.map(|format| store.to_text(format, Which::All, at(NOW)));
    assert_eq!(
        errors,
        [
            Err(Error::BadExpiry),
            Err(Error::BadExpiry),
            Err(Error::Unrepresentable)
        ]
    );
}

/// A session cookie, an expired one, and one that lasts, between malformed lines.
#[test]
fn malformed_lines_are_left_out() {
    let line =
        |name: &str, expires: i64| format!("a.example\tFALSE\t/\tFALSE\t{expires}\t{name}\t1\n");
    let file = format!(
        "# comment\na=1\n{}\na.example\n{}{}",
        line("b", 0),
        line("c", NOW),
        line("d", NOW + 1)
    );
    let table = [
        (file.as_str(), Which::All, "bcd", vec![2, 5]),
        (&file, Which::Unexpired, "bd", vec![2, 5]),
        (&file, Which::Persistent, "d", vec![2, 5]),
        ("", Which::All, "", vec![]),
        ("a=1", Which::All, "", vec![1]),
    ];
    for (file, which, expected, malformed) in table {
        let (store, lines) = CookieStore::from_text_lenient(file, which, at(NOW)).unwrap();
        assert_eq!(
            (names(&store).as_str(), lines),
            (expected, malformed),
            "{which:?}: {file}"
        );
    }
    let error = CookieStore::from_text_lenient("", Which::All, at(FIRST - 1)).unwrap_err();
    assert_eq!(error, Error::BadTime);
}

#[test]
fn unrepresentable_cookies_are_left_out() {
    let store = filled(&[
        "a=x\ty; Path=/",
        "b=2; Path=/",
        "c=3; Path=/; Max-Age=60",
        "d=4; Path=/; Max-Age=90",
    ]);
    // The time and the cookies of saving, the names of the saved ones, and how many are left out.
    let table = [
        (NOW, Which::All, "bcd", 1),
        (NOW + 60, Which::Unexpired, "bd", 1),
        (NOW + 60, Which::Persistent, "d", 0),
    ];
    for (now, which, expected, left_out) in table {
        let (file, count) = store.to_text_lenient(which, at(now)).unwrap();
        let copy = CookieStore::from_text(&file, Format::Netscape, Which::All, at(NOW)).unwrap();
        assert_eq!(
            (names(&copy).as_str(), count),
            (expected, left_out),
            "{which:?}"
        );
    }
    let error = store
        .to_text_lenient(Which::All, at(FIRST - 1))
        .unwrap_err();
    assert_eq!(error, Error::BadTime);
}

/// An expiry of a list may have a fraction, and is rounded down.
#[test]
fn expiries_before_1970_are_loaded() {
    let list = r#"[{"raw_cookie":"a=1","path":["/",true],"domain":{"Suffix":"a.example"},"expires":{"AtUtc":"1969-12-31T23:59:58.5Z"}}]"#;
    let store = CookieStore::from_text(list, Format::Json, Which::All, at(NOW)).unwrap();
    let cookies = store.cookies().unwrap();
    assert_eq!(cookies[0].expires, Some(at(-2)));
    assert_eq!((cookies[0].host_only, cookies[0].has_path), (false, true));
}
