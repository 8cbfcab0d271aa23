use std::num::{NonZeroU32, NonZeroUsize};
use std::thread;

use pulleymaroon::{shard, CookieStore, Error, ShardedStore};

use crate::{at, filled, NOW};

const LIST: &str = "com\njp\n*.kobe.jp\nuk\nco.uk\n";

/// Hosts with their roots under that list.
const ROOTS: [(&str, &str); 9] = [
    ("www.example.com", "example.com"),
    ("com", "com"),
    ("a.b.example.co.uk", "example.co.uk"),
    ("a.b.kobe.jp", "kobe.jp"),
    ("b.kobe.jp", "kobe.jp"),
    ("b.a.localhost", "a.localhost"),
    ("127.0.0.1", "127.0.0.1"),
    ("[::1]", "[::1]"),
    ("www.example.com.", "example.com."),
];

/// Set-Cookie header values, some of which no host may set.
const VALUES: [&str; 6] = [
    "a=1",
    "b=2; Domain=example.com",
    "c=3; Domain=kobe.jp",
    "d=4; Domain=com",
    "a=5; Max-Age=0",
    "e=6",
];

fn strict_store() -> CookieStore {
    let mut store = CookieStore::new().unwrap();
    store.set_suffix_list(LIST).unwrap();
    store.set_strict(true);
    store.set_domain_limit(NonZeroUsize::new(2).unwrap());
    store
}

#[test]
fn hosts_have_roots() {
    let store = strict_store();
    for (host, root) in ROOTS {
        let url = format!("https://{host}:8080/x?y");
        assert_eq!(store.root(&url).as_deref(), Ok(root));
        assert_eq!(store.root_of_domain(host).as_deref(), Ok(root));
    }
    assert_eq!(store.root("data:x").as_deref(), Ok(""));
    let long = format!("{}a.com", "l.".repeat(500));
    assert_eq!(store.root_of_domain(&long).as_deref(), Ok("a.com"));
    let label = "l".repeat(300);
    assert_eq!(store.root_of_domain(&label), Ok(label));
}

#[test]
fn roots_need_a_list_and_a_url() {
    let mut store = CookieStore::new().unwrap();
    assert_eq!(store.root("no url"), Err(Error::NoList));
    assert_eq!(store.root_of_domain("a.com"), Err(Error::NoList));
    store.set_suffix_list(LIST).unwrap();
    assert_eq!(store.root("no url"), Err(Error::BadUrl));
}

/// The hashes are those that the authors of FNV publish.
#[test]
fn shards_are_of_fnv_1a() {
    for (root, hash) in [
        ("", 0xcbf2_9ce4_8422_2325_u64),
        ("a", 0xaf63_dc4c_8601_ec8c),
        ("foobar", 0x8594_4171_f739_67e8),
    ] {
        for shards in [1, 2, 16, 1 << 31, u32::MAX] {
            let expected = hash % u64::from(shards);
            let number = shard(root, NonZeroU32::new(shards).unwrap());
            assert_eq!(u64::from(number), expected, "{root} of {shards}");
        }
    }
}

/// Stores that are split by site do what one store does.
#[test]
fn split_stores_are_one_store() {
    let shards = NonZeroU32::new(4).unwrap();
    let mut one = strict_store();
    let mut stores: Vec<_> = (0..shards.get()).map(|_| strict_store()).collect();
    let urls: Vec<_> = ROOTS
        .iter()
        .map(|(host, _)| format!("http://{host}/"))
        .collect();
    for url in &urls {
        let number = shard(&one.root(url).unwrap(), shards) as usize;
        for value in VALUES {
            let action = stores[number].parse(value, url, at(NOW));
            assert_eq!(action, one.parse(value, url, at(NOW)), "{url} {value}");
        }
    }
    for url in &urls {
        let number = shard(&one.root(url).unwrap(), shards) as usize;
        let header = stores[number].cookie_header(url, at(NOW));
        assert_eq!(header, one.cookie_header(url, at(NOW)), "{url}");
    }
    assert_eq!(
        stores.iter().map(CookieStore::len).sum::<usize>(),
        one.len()
    );
    assert!(stores.iter().all(|store| store.len() < one.len()));
    for cookie in one.cookies().unwrap() {
        let root = one.root_of_domain(&cookie.domain).unwrap();
        let store = &mut stores[shard(&root, shards) as usize];
        assert!(store.remove(&cookie.domain, &cookie.path, &cookie.name));
    }
    assert!(stores.iter().all(CookieStore::is_empty));
}

/// Returns the headers of all hosts.
fn headers(header: impl Fn(&str) -> Option<String>) -> Vec<Option<String>> {
    let urls = ROOTS.map(|(host, _)| format!("http://{host}/"));
    urls.iter().map(|url| header(url)).collect()
}

#[test]
fn a_sharded_store_has_the_cookies_of_its_store() {
    let mut one = strict_store();
    for (host, _) in ROOTS {
        for value in VALUES {
            let _ = one.parse(value, &format!("http://{host}/"), at(NOW));
        }
    }
    let sharded = ShardedStore::new(one.clone(), NonZeroU32::new(5).unwrap()).unwrap();
    let header = |url: &str| {
        sharded
            .lock(url)
            .unwrap()
            .cookie_header(url, at(NOW))
            .unwrap()
    };
    let expected = headers(|url| one.cookie_header(url, at(NOW)).unwrap());
    assert_eq!(headers(header), expected);
    assert_eq!(headers(header), expected);
    assert!(sharded.lock_each().all(|store| store.is_strict()));
    for cookie in one.cookies().unwrap() {
        let mut store = sharded.lock_domain(&cookie.domain).unwrap();
        assert!(store.remove(&cookie.domain, &cookie.path, &cookie.name));
    }
    assert!(sharded.lock_each().all(|store| store.is_empty()));
}

#[test]
fn a_sharded_store_needs_a_list_and_urls() {
    let two = NonZeroU32::new(2).unwrap();
    let error = ShardedStore::new(filled(&["a=1"]), two).unwrap_err();
    assert_eq!(error, Error::NoList);
    let sharded = ShardedStore::new(strict_store(), two).unwrap();
    for url in ["no url", "http://a\\@b/", "data://"] {
        assert_eq!(sharded.lock(url).err(), sharded.lock(url).err(), "{url}");
    }
    assert_eq!(sharded.lock("no url").err(), Some(Error::BadUrl));
    assert_eq!(format!("{sharded:?}"), "ShardedStore { shards: 2, .. }");
}

#[test]
fn threads_share_a_sharded_store() {
    const THREADS: usize = 8;
    const ROUNDS: usize = 300;
    let sharded = ShardedStore::new(strict_store(), NonZeroU32::new(4).unwrap()).unwrap();
    thread::scope(|scope| {
        for thread in 0..THREADS {
            let sharded = &sharded;
            scope.spawn(move || {
                for round in 0..ROUNDS {
                    let url = format!("http://h{round}.site{thread}.com/");
                    let value = format!("c{}={round}; Domain=site{thread}.com", round % 2);
                    let mut store = sharded.lock(&url).unwrap();
                    store.parse(&value, &url, at(NOW)).unwrap();
                }
            });
        }
    });
    let count: usize = sharded.lock_each().map(|store| store.len()).sum();
    assert_eq!(count, 2 * THREADS);
}
