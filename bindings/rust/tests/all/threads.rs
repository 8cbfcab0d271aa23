use std::sync::Mutex;
use std::thread;

use pulleymaroon::{CookieStore, Format, Which};

use crate::{assert_header, at, filled, NOW, PAGE};

#[test]
fn a_store_moves_to_another_thread() {
    let mut store = filled(&["a=1"]);
    let store = thread::spawn(move || {
        store.parse("b=2", PAGE, at(NOW)).unwrap();
        store
    })
    .join()
    .unwrap();
    assert_header(&store, PAGE, NOW, "a=1; b=2");
}

#[test]
fn threads_share_a_store() {
    const THREADS: usize = 8;
    const ROUNDS: usize = 200;
    let store = Mutex::new(CookieStore::new().unwrap());
    thread::scope(|scope| {
        for thread in 0..THREADS {
            let store = &store;
            scope.spawn(move || {
                let url = format!("http://h{thread}.example/");
                for round in 0..ROUNDS {
                    let pair = format!("c{round}={thread}");
                    store.lock().unwrap().parse(&pair, &url, at(NOW)).unwrap();
                }
            });
        }
    });
    let store = store.into_inner().unwrap();
    assert_eq!(store.len(), THREADS * ROUNDS);
    for thread in 0..THREADS {
        let pairs: Vec<_> = (0..ROUNDS)
            .map(|round| format!("c{round}={thread}"))
            .collect();
        assert_header(
            &store,
            &format!("http://h{thread}.example/"),
            NOW,
            &pairs.join("; "),
        );
    }
}

/// Returns the kilobytes of memory of this process that are in RAM.
#[cfg(target_os = "linux")]
fn resident() -> usize {
    let status = std::fs::read_to_string("/proc/self/status").unwrap();
    let line = status.lines().find_map(|line| line.strip_prefix("VmRSS:"));
    line.unwrap().trim_end_matches("kB").trim().parse().unwrap()
}

/// 400 stores of a megabyte each need 400 megabytes if they are not freed.
#[cfg(target_os = "linux")]
#[test]
fn drop_frees_a_store() {
    let large = format!("a={}", "v".repeat(1 << 20));
    let before = resident();
    for _ in 0..400 {
        filled(&[&large]);
        // A store that could not be loaded is freed too.
        CookieStore::from_text(&large, Format::Json, Which::All, at(NOW)).unwrap_err();
    }
    let more = resident().saturating_sub(before);
    assert!(more < 100 << 10, "{more} kB");
}
