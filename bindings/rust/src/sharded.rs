//! A store that is split by site, each part with a lock of its own.

use std::collections::HashMap;
use std::fmt;
use std::num::NonZeroU32;
use std::sync::{Mutex, MutexGuard, PoisonError, RwLock};

use crate::{shard, CookieStore, Error};

/// How many origins a store remembers the shards of.
const MOST_ORIGINS: usize = 1 << 14;

/// A strict store with a public suffix list, split by site into several stores, each with a lock of
/// its own: threads wait only for those that use the same store.
///
/// Under the rules of browsers a cookie stays within its [root](CookieStore::root), so that a root has
/// one store. What differs from one store is said in docs/STRICT.md of the repository. Each store has a
/// copy of the list, which takes 2 MB for that of publicsuffix.org.
///
/// ```
/// use pulleymaroon::{CookieStore, ShardedStore};
/// use std::num::NonZeroU32;
/// use std::time::SystemTime;
///
/// let mut store = CookieStore::new()?;
/// store.set_suffix_list("com\nuk\nco.uk\n")?;
/// let store = ShardedStore::new(store, NonZeroU32::new(8).unwrap())?;
///
/// // Threads share `store` by a reference, or in an Arc.
/// let (url, now) = ("https://www.example.co.uk/", SystemTime::now());
/// store.lock(url)?.parse("id=7; Domain=example.co.uk", url, now)?;
/// let url = "https://example.co.uk/x";
/// assert_eq!(store.lock(url)?.cookie_header(url, now)?.as_deref(), Some("id=7"));
/// assert_eq!(store.lock_each().map(|store| store.len()).sum::<usize>(), 1);
/// # Ok::<(), pulleymaroon::Error>(())
/// ```
pub struct ShardedStore {
    count: NonZeroU32,
    shards: Vec<Mutex<CookieStore>>,
    /// The shards of origins that were found before: calls for them do not exclude each other.
    known: RwLock<HashMap<String, u32>>,
    /// A store without cookies, and with the list, that finds roots.
    roots: Mutex<CookieStore>,
}

impl ShardedStore {
    /// Splits a store, which becomes strict, into `shards` stores: each gets the cookies of its roots.
    ///
    /// # Errors
    ///
    /// [`Error::NoList`] if the store has no public suffix list, [`Error::NoMemory`].
    pub fn new(mut store: CookieStore, shards: NonZeroU32) -> Result<ShardedStore, Error> {
        store.set_strict(true);
        let mut roots = store.try_clone()?;
        roots.clear();
        let mut stores = vec![store];
        for _ in 1..shards.get() {
            stores.push(stores[0].try_clone()?);
        }
        for cookie in stores[0].cookies()? {
            let own = shard(&roots.root_of_domain(&cookie.domain)?, shards);
            for (number, store) in stores.iter_mut().enumerate() {
                if number != own as usize {
                    store.remove_domain(&cookie.domain);
                }
            }
        }
        Ok(ShardedStore {
            count: shards,
            shards: stores.into_iter().map(Mutex::new).collect(),
            known: RwLock::default(),
            roots: Mutex::new(roots),
        })
    }

    /// Locks the store for the calls that take `url`. Its list, its limit and its strictness must stay.
    ///
    /// # Errors
    ///
    /// [`Error::BadUrl`], [`Error::NoMemory`].
    pub fn lock(&self, url: &str) -> Result<MutexGuard<'_, CookieStore>, Error> {
        let number = self.number(url)?;
        Ok(guard(&self.shards[number as usize]))
    }

    /// Locks the store for the calls that take the domain of a cookie.
    ///
    /// # Errors
    ///
    /// [`Error::NoMemory`].
    pub fn lock_domain(&self, domain: &str) -> Result<MutexGuard<'_, CookieStore>, Error> {
        let root = guard(&self.roots).root_of_domain(domain)?;
        Ok(guard(&self.shards[shard(&root, self.count) as usize]))
    }

    /// Locks each of the stores in turn, for the calls that are for all cookies, such as
    /// [`clear`](CookieStore::clear).
    pub fn lock_each(&self) -> impl Iterator<Item = MutexGuard<'_, CookieStore>> {
        self.shards.iter().map(guard)
    }

    /// Returns the number of the shard of a URL.
    fn number(&self, url: &str) -> Result<u32, Error> {
        let origin = origin(url);
        if let Some(number) = origin.and_then(|origin| self.known_number(origin)) {
            return Ok(number);
        }
        let root = guard(&self.roots).root(url)?;
        let number = shard(&root, self.count);
        if let Some(origin) = origin {
            let mut known = self.known.write().unwrap_or_else(PoisonError::into_inner);
            if known.len() == MOST_ORIGINS {
                known.clear();
            }
            known.insert(origin.to_owned(), number);
        }
        Ok(number)
    }

    /// Returns the number of the shard of an origin, if it was found before.
    fn known_number(&self, origin: &str) -> Option<u32> {
        let known = self.known.read().unwrap_or_else(PoisonError::into_inner);
        known.get(origin).copied()
    }
}

impl fmt::Debug for ShardedStore {
    fn fmt(&self, f: &mut fmt::Formatter<'_>) -> fmt::Result {
        f.debug_struct("ShardedStore")
            .field("shards", &self.shards.len())
            .finish_non_exhaustive()
    }
}

/// Returns the scheme and the authority of a URL, which have its host.
fn origin(url: &str) -> Option<&str> {
    let begin = url.find("://")? + 3;
    let len = url[begin..].find(['/', '?', '#', '\\'])?;
    Some(&url[..begin + len])
}

/// Locks a mutex. A thread that panicked with the guard leaves the store whole, so its lock is not
/// poisoned.
fn guard<T>(mutex: &Mutex<T>) -> MutexGuard<'_, T> {
    mutex.lock().unwrap_or_else(PoisonError::into_inner)
}
