//! Stores that are split by site.

use std::num::NonZeroU32;

use crate::buffer::string;
use crate::{sys, CookieStore, Error};

/// A length that is enough for most hosts.
const ROOT: usize = 256;

impl CookieStore {
    /// Returns the root of the host of `url`: its outermost site under the public suffix list of the
    /// store. It is empty if the URL has no host.
    ///
    /// Mostly it is the registrable domain. But sites nest: `*.kobe.jp` is on the list of
    /// publicsuffix.org, so that `a.b.kobe.jp` is a site, whose root is `kobe.jp`.
    ///
    /// In a strict store with a list, a cookie that a host sets is sent only to hosts of the same root.
    /// So each root, or each [`shard`] of roots, may have a store of its own, with a lock of its own, if
    /// all are strict and have the same list and limit:
    ///
    /// ```
    /// use pulleymaroon::{shard, CookieStore};
    /// use std::num::NonZeroU32;
    /// use std::sync::Mutex;
    /// use std::time::SystemTime;
    ///
    /// let shards = NonZeroU32::new(8).unwrap();
    /// let mut empty = CookieStore::new()?;
    /// empty.set_suffix_list("com\nuk\nco.uk\n")?;
    /// empty.set_strict(true);
    /// let stores: Vec<_> = (0..shards.get()).map(|_| Mutex::new(empty.clone())).collect();
    ///
    /// let url = "https://www.example.co.uk/";
    /// let root = empty.root(url)?;
    /// assert_eq!(root, "example.co.uk");
    /// let mut store = stores[shard(&root, shards) as usize].lock().unwrap();
    /// store.parse("id=7; Domain=example.co.uk", url, SystemTime::now())?;
    /// # Ok::<(), pulleymaroon::Error>(())
    /// ```
    ///
    /// # Errors
    ///
    /// [`Error::NoList`], [`Error::BadUrl`], [`Error::NoMemory`].
    pub fn root(&self, url: &str) -> Result<String, Error> {
        string(ROOT, |out, len, needed| {
            // SAFETY: see `CookieStore`.
            unsafe {
                sys::cookie_store_root(
                    self.handle(),
                    url.as_ptr().cast(),
                    url.len(),
                    out,
                    len,
                    needed,
                )
            }
        })
    }

    /// Returns the root of the domain of a cookie, as [`cookies`](CookieStore::cookies) returns it.
    ///
    /// # Errors
    ///
    /// [`Error::NoList`], [`Error::NoMemory`].
    pub fn root_of_domain(&self, domain: &str) -> Result<String, Error> {
        string(ROOT, |out, len, needed| {
            // SAFETY: see `CookieStore`.
            unsafe {
                sys::cookie_store_root_of_domain(
                    self.handle(),
                    domain.as_ptr().cast(),
                    domain.len(),
                    out,
                    len,
                    needed,
                )
            }
        })
    }
}

/// Returns the number of the shard of a [root](CookieStore::root), below `shards`: the 64-bit FNV-1a
/// hash of its bytes modulo `shards`. This never changes, so that the numbers may be saved.
///
/// The hash has no key: a server can choose roots that fall into one shard.
pub fn shard(root: &str, shards: NonZeroU32) -> u32 {
    let mut number = 0;
    // The errors are that the root is not UTF-8, and that there are no shards.
    // SAFETY: the root is a pointer and its length, and `number` is written to.
    unsafe { sys::cookie_store_shard(root.as_ptr().cast(), root.len(), shards.get(), &mut number) };
    number
}
