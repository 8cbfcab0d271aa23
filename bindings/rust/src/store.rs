use std::cell::UnsafeCell;
use std::collections::hash_map::RandomState;
use std::fmt;
use std::hash::{BuildHasher, Hasher};
use std::num::NonZeroUsize;
use std::panic::RefUnwindSafe;
use std::path::Path;
use std::time::SystemTime;
use std::{fs, io, ptr};

use crate::buffer::{string, HEADER};
use crate::error::check;
use crate::sys::{self, cookie_store_cross_site, cookie_store_status};
use crate::time::seconds;
use crate::{Cookie, Error};

/// The public suffix list that Debian's package `publicsuffix` installs, for
/// [`CookieStore::set_suffix_file`].
pub const SYSTEM_SUFFIX_FILE: &str = "/usr/share/publicsuffix/public_suffix_list.dat";

/// What [`CookieStore::parse`] or another call that inserts a cookie did.
#[derive(Clone, Copy, Debug, PartialEq, Eq)]
#[non_exhaustive]
pub enum StoreAction {
    /// The cookie was inserted: none with its domain, path and name was stored.
    Inserted,
    /// The cookie has expired, and so the stored one with the same domain, path and name was
    /// expired too. It is not removed.
    ExpiredExisting,
    /// The cookie replaced the stored one, expired or not, with the same domain, path and name.
    UpdatedExisting,
    /// A status of success that this version of the crate does not expect, from another version of the
    /// library.
    Unexpected(u32),
}

impl StoreAction {
    fn of(status: cookie_store_status) -> Result<StoreAction, Error> {
        match status {
            sys::COOKIE_STORE_INSERTED => Ok(StoreAction::Inserted),
            sys::COOKIE_STORE_UPDATED => Ok(StoreAction::UpdatedExisting),
            sys::COOKIE_STORE_EXPIRED_EXISTING => Ok(StoreAction::ExpiredExisting),
            status if status < 10 => Ok(StoreAction::Unexpected(status)),
            status => Err(Error::new(status, 0)),
        }
    }
}

/// Where a cross-site request comes from, and how cookies without a SameSite attribute are treated.
#[derive(Clone, Copy, Debug, PartialEq, Eq)]
pub struct CrossSite {
    /// The request is a top-level navigation with a safe method, such as a link that is followed. For
    /// [`CookieStore::parse_for`] the method does not matter.
    pub top_level: bool,
    /// A cookie without a SameSite attribute is treated as SameSite=Lax, as in the draft. Otherwise
    /// it is treated as SameSite=None.
    pub lax_by_default: bool,
}

impl CrossSite {
    fn flags(self) -> cookie_store_cross_site {
        let mut flags = sys::COOKIE_STORE_CROSS_SITE;
        if self.top_level {
            flags |= sys::COOKIE_STORE_TOP_LEVEL;
        }
        if !self.lax_by_default {
            flags |= sys::COOKIE_STORE_NONE_BY_DEFAULT;
        }
        flags
    }
}

/// A cookie store after RFC 6265.
///
/// The library lets one thread at a time use a store, also to read it: a store is [`Send`] and not
/// [`Sync`]. To share one between threads, put it into a [`Mutex`](std::sync::Mutex).
///
/// ```compile_fail,E0277
/// fn assert_sync<T: Sync>() {}
/// assert_sync::<pulleymaroon::CookieStore>();
/// ```
///
/// The time of a call is its argument `now`, usually [`SystemTime::now`]. It must be in the years
/// -9999 to 9999. A cookie has expired if its expiry time is `now` or earlier.
///
/// A method that returns an error leaves the store unchanged, except [`merge`](CookieStore::merge).
//
// SAFETY of the calls below: the handle is initialized, empty or with a store; no other call uses it
// meanwhile, since a store is not `Sync` and no call calls back; pointers come from references and
// slices, so they are not NULL, aligned and valid for their lengths; and what a call writes to is
// borrowed mutably, or is the handle, to which there is no reference, so it overlaps nothing. Calls
// that only read the store write to its handle too.
pub struct CookieStore(UnsafeCell<sys::cookie_store>);

// SAFETY: a store may be used by any thread, one at a time.
unsafe impl Send for CookieStore {}

// No call panics while it uses the handle.
impl RefUnwindSafe for CookieStore {}

impl Drop for CookieStore {
    fn drop(&mut self) {
        // SAFETY: see `CookieStore`. The handle is not used again.
        unsafe { sys::cookie_store_free(self.handle()) }
    }
}

/// `clone` is [`try_clone`](CookieStore::try_clone), and panics if that is out of memory.
impl Clone for CookieStore {
    fn clone(&self) -> CookieStore {
        match self.try_clone() {
            Ok(copy) => copy,
            Err(error) => panic!("a cookie store cannot be copied: {error}"),
        }
    }
}

/// Shows nothing of the cookies.
impl fmt::Debug for CookieStore {
    fn fmt(&self, f: &mut fmt::Formatter<'_>) -> fmt::Result {
        f.debug_struct("CookieStore").finish_non_exhaustive()
    }
}

impl CookieStore {
    /// Creates a store without cookies, without a public suffix list and without a limit.
    ///
    /// Its hash tables use a random key.
    ///
    /// # Errors
    ///
    /// [`Error::NoMemory`].
    pub fn new() -> Result<CookieStore, Error> {
        CookieStore::create(|store, key| {
            // SAFETY: see `CookieStore`.
            let status = unsafe { sys::cookie_store_new(store, key.as_ptr().cast(), key.len()) };
            check(status, 0)
        })
    }

    /// Returns a copy of the store: its cookies in the same order and creation order, public suffix
    /// list, limit and hash key. The copy is strict if the store is.
    ///
    /// ```
    /// use pulleymaroon::CookieStore;
    /// use std::time::SystemTime;
    ///
    /// let mut store = CookieStore::new()?;
    /// let now = SystemTime::now();
    /// store.parse("id=7; SameSite=None", "http://example.com/", now)?;
    ///
    /// let copy = store.try_clone()?;
    /// store.clear();
    /// assert_eq!(copy.cookie_header("http://example.com/", now)?.as_deref(), Some("id=7"));
    /// # Ok::<(), pulleymaroon::Error>(())
    /// ```
    ///
    /// # Errors
    ///
    /// [`Error::NoMemory`].
    pub fn try_clone(&self) -> Result<CookieStore, Error> {
        let copy = CookieStore::empty();
        // SAFETY: see `CookieStore`. The two handles differ.
        let status = unsafe { sys::cookie_store_clone(self.handle(), copy.handle()) };
        check(status, 0)?;
        Ok(copy)
    }

    /// Sets the public suffix list, in the format of publicsuffix.org, in place of the one before,
    /// and adds the rule `*`, as publicsuffix.org specifies: a top-level domain without a rule of its
    /// own, such as `np`, is a public suffix too.
    ///
    /// From now on a cookie whose Domain attribute is a public suffix is rejected, unless it comes
    /// from that very host; then it is stored as a host-only cookie. Stored cookies stay.
    ///
    /// `list` is the content of a file, and [`set_suffix_file`](CookieStore::set_suffix_file) takes its
    /// path. A line has one rule, such as `co.uk`, `*.ck` or `!www.ck`, and what follows white space is
    /// ignored. Lines without a rule and lines that begin with `//` are skipped. A line is malformed if
    /// its rule has an empty label or one of the characters `/ < { " : @ =`, so that a path with a slash,
    /// an HTML page or a JSON document is an error.
    ///
    /// # Errors
    ///
    /// [`Error::BadRule`], [`Error::NoRules`], [`Error::NoMemory`].
    pub fn set_suffix_list(&mut self, list: &str) -> Result<(), Error> {
        self.set_suffixes(list, false)
    }

    /// Sets the public suffix list as [`set_suffix_list`](CookieStore::set_suffix_list) does, but does
    /// not add the rule `*`: a domain that no rule of the list matches is not a public suffix.
    ///
    /// # Errors
    ///
    /// Those of [`set_suffix_list`](CookieStore::set_suffix_list).
    pub fn set_only_listed_suffixes(&mut self, list: &str) -> Result<(), Error> {
        self.set_suffixes(list, true)
    }

    /// Sets the public suffix list to the content of a file, as
    /// [`set_suffix_list`](CookieStore::set_suffix_list) does. [`SYSTEM_SUFFIX_FILE`] is the one of the
    /// machine.
    ///
    /// ```no_run
    /// use pulleymaroon::{CookieStore, SYSTEM_SUFFIX_FILE};
    ///
    /// let mut store = CookieStore::new()?;
    /// store.set_suffix_file(SYSTEM_SUFFIX_FILE)?;
    /// # Ok::<(), Box<dyn std::error::Error>>(())
    /// ```
    ///
    /// # Errors
    ///
    /// Those of reading the file. If its content is not a list, the kind is
    /// [`InvalidData`](io::ErrorKind::InvalidData), and [`get_ref`](io::Error::get_ref) is the
    /// [`Error`]: [`Error::NotUtf8`] or one of [`set_suffix_list`](CookieStore::set_suffix_list).
    pub fn set_suffix_file(&mut self, path: impl AsRef<Path>) -> io::Result<()> {
        let list = String::from_utf8(fs::read(path)?).map_err(|_| Error::NotUtf8)?;
        Ok(self.set_suffix_list(&list)?)
    }

    fn set_suffixes(&mut self, list: &str, only_listed: bool) -> Result<(), Error> {
        let mut line = 0;
        // SAFETY: see `CookieStore`.
        let status = unsafe {
            sys::cookie_store_set_suffix_list(
                self.handle(),
                list.as_ptr().cast(),
                list.len(),
                only_listed,
                &mut line,
            )
        };
        check(status, line)
    }

    /// Limits each domain to `limit` cookies, RFC 6265 6.1.
    ///
    /// From now on, before a cookie is inserted, cookies of its domain are evicted until it fits:
    /// first the expired ones, then the others, both in creation order. A strict store evicts Secure
    /// cookies that have not expired last.
    pub fn set_domain_limit(&mut self, limit: NonZeroUsize) {
        // The errors are that the handle is empty, and that the limit is 0.
        // SAFETY: see `CookieStore`.
        unsafe { sys::cookie_store_set_domain_limit(self.handle(), limit.get()) };
    }

    /// Returns the limit of cookies of each domain, or `None` if there is none.
    pub fn domain_limit(&self) -> Option<NonZeroUsize> {
        // SAFETY: see `CookieStore`.
        NonZeroUsize::new(unsafe { sys::cookie_store_domain_limit(self.handle()) })
    }

    /// Sets whether the store is strict. A store that was just created or loaded is not, and a copy is
    /// if its original is.
    ///
    /// A strict store follows the rules that the revision of RFC 6265, draft-ietf-httpbis-rfc6265bis,
    /// adds and browsers follow: [`Error`] lists what it rejects, attributes whose value is longer
    /// than 1,024 bytes are ignored, and a cookie expires at most 400 days after it was received.
    /// With a public suffix list, the domain of a cookie may not be above the site of the host that
    /// sets it. Stored cookies stay.
    pub fn set_strict(&mut self, strict: bool) {
        // The only error is that the handle is empty.
        // SAFETY: see `CookieStore`.
        unsafe { sys::cookie_store_set_strict(self.handle(), strict) };
    }

    /// Returns whether the store is strict.
    pub fn is_strict(&self) -> bool {
        // SAFETY: see `CookieStore`.
        unsafe { sys::cookie_store_is_strict(self.handle()) }
    }

    /// Parses a `Set-Cookie` header value received from `url` at `now`, and inserts the cookie,
    /// RFC 6265 5.3.
    ///
    /// The URL of a response to a WebSocket handshake is to begin with `http` or `https`, not with `ws`
    /// or `wss`: the handshake is HTTP, and HttpOnly cookies are for HTTP alone.
    ///
    /// # Errors
    ///
    /// [`Error::BadTime`], [`Error::BadUrl`], [`Error::NoMemory`], and those with
    /// [`Error::is_rejection`], which a user agent ignores.
    pub fn parse(
        &mut self,
        set_cookie: &str,
        url: &str,
        now: SystemTime,
    ) -> Result<StoreAction, Error> {
        // SAFETY: see `CookieStore`.
        let status = unsafe {
            sys::cookie_store_parse(
                self.handle(),
                url.as_ptr().cast(),
                url.len(),
                set_cookie.as_ptr().cast(),
                set_cookie.len(),
                seconds(now),
            )
        };
        StoreAction::of(status)
    }

    /// Inserts the cookies of all `Set-Cookie` header values of a response received from `url` at `now`,
    /// in order, and parses the URL once.
    ///
    /// Returns for each header value what [`parse`](CookieStore::parse) returns, or [`Error::NotUtf8`].
    ///
    /// ```
    /// use pulleymaroon::{CookieStore, Error, StoreAction};
    /// use std::time::SystemTime;
    ///
    /// let mut store = CookieStore::new()?;
    /// let values = ["a=1", "b=2; Domain=other.example"];
    /// let received = store.receive(values, "http://example.com/", SystemTime::now())?;
    /// assert_eq!(received, [Ok(StoreAction::Inserted), Err(Error::DomainMismatch)]);
    /// # Ok::<(), Error>(())
    /// ```
    ///
    /// # Errors
    ///
    /// [`Error::BadTime`], [`Error::BadUrl`], [`Error::NoMemory`].
    pub fn receive<V: AsRef<[u8]>>(
        &mut self,
        set_cookies: impl IntoIterator<Item = V>,
        url: &str,
        now: SystemTime,
    ) -> Result<Vec<Result<StoreAction, Error>>, Error> {
        let (mut values, mut lens) = (Vec::new(), Vec::new());
        for value in set_cookies {
            let value = value.as_ref();
            values.extend_from_slice(value);
            lens.push(value.len());
        }
        let mut statuses = vec![sys::COOKIE_STORE_OK; lens.len()];
        // SAFETY: see `CookieStore`.
        let status = unsafe {
            sys::cookie_store_parse_each(
                self.handle(),
                url.as_ptr().cast(),
                url.len(),
                values.as_ptr().cast(),
                values.len(),
                lens.as_ptr(),
                lens.len(),
                seconds(now),
                statuses.as_mut_ptr(),
                statuses.len(),
            )
        };
        check(status, 0)?;
        Ok(statuses.into_iter().map(StoreAction::of).collect())
    }

    /// Parses a `Set-Cookie` header value of the response to a request that a page made for `url`, and
    /// inserts the cookie under the rules of browsers, whether the store is strict or not.
    ///
    /// `page` is the URL of the page. If it is not same-site with `url`, as in
    /// [`cookie_header_for`](CookieStore::cookie_header_for), the request is the one that `context`
    /// describes, and a cookie is rejected unless it is SameSite=None, or the request is a top-level
    /// navigation with any method.
    ///
    /// # Errors
    ///
    /// Those of [`parse`](CookieStore::parse), and [`Error::CrossSiteResponse`].
    pub fn parse_for(
        &mut self,
        set_cookie: &str,
        url: &str,
        page: &str,
        now: SystemTime,
        context: CrossSite,
    ) -> Result<StoreAction, Error> {
        // SAFETY: see `CookieStore`.
        let status = unsafe {
            sys::cookie_store_parse_for(
                self.handle(),
                url.as_ptr().cast(),
                url.len(),
                page.as_ptr().cast(),
                page.len(),
                set_cookie.as_ptr().cast(),
                set_cookie.len(),
                seconds(now),
                context.flags(),
            )
        };
        StoreAction::of(status)
    }

    /// Inserts a cookie by its parts, as if it was received at `now` from `https://DOMAIN/`, with its own
    /// domain.
    ///
    /// The domain is in lower case and in Punycode, without a leading dot. A domain cookie whose domain
    /// is a public suffix becomes a host-only cookie.
    ///
    /// ```
    /// use pulleymaroon::{Cookie, CookieStore};
    /// use std::time::{Duration, SystemTime};
    ///
    /// let mut store = CookieStore::new()?;
    /// let now = SystemTime::now();
    /// let mut cookie = Cookie::new("id", "7", "example.com");
    /// cookie.secure = true;
    /// cookie.expires = Some(now + Duration::from_secs(3600));
    /// store.insert(&cookie, now)?;
    ///
    /// let header = store.cookie_header("https://www.example.com/", now)?;
    /// assert_eq!(header.as_deref(), Some("id=7"));
    /// # Ok::<(), pulleymaroon::Error>(())
    /// ```
    ///
    /// # Errors
    ///
    /// [`Error::BadTime`], [`Error::Parse`] if no server can set the cookie, as with a `;` in its name
    /// or a path that does not begin with `/`, [`Error::DomainMismatch`] if the domain is not the host of
    /// a URL, [`Error::Expired`], those of a strict store, [`Error::NoMemory`].
    pub fn insert(&mut self, cookie: &Cookie, now: SystemTime) -> Result<StoreAction, Error> {
        let row = cookie.to_row();
        // SAFETY: see `CookieStore`.
        let status = unsafe {
            sys::cookie_store_insert(
                self.handle(),
                cookie.domain.as_ptr().cast(),
                cookie.domain.len(),
                cookie.path.as_ptr().cast(),
                cookie.path.len(),
                cookie.name.as_ptr().cast(),
                cookie.name.len(),
                cookie.value.as_ptr().cast(),
                cookie.value.len(),
                &row,
                seconds(now),
            )
        };
        StoreAction::of(status)
    }

    /// Returns the value of the `Cookie` header of a request for `url` at `now`, such as `a=1; b=2`,
    /// or `None` if no such header is to be sent, RFC 6265 5.4.
    ///
    /// Cookies with longer paths come first; cookies with paths of equal length are in creation
    /// order. The URL of a WebSocket handshake is to begin with `http` or `https`, not with `ws` or
    /// `wss`, which have no HttpOnly cookies and no Secure ones.
    ///
    /// Names and values are as they were received. Those that did not come in an HTTP header, for
    /// example in a loaded list, may have control characters, with which a header could end early and
    /// begin another one. The `HeaderValue` of the crate `http` rejects them.
    ///
    /// # Errors
    ///
    /// [`Error::BadTime`], [`Error::BadUrl`], [`Error::NoMemory`].
    pub fn cookie_header(&self, url: &str, now: SystemTime) -> Result<Option<String>, Error> {
        let header = string(HEADER, |out, len, needed| {
            // SAFETY: see `CookieStore`.
            unsafe {
                sys::cookie_store_header(
                    self.handle(),
                    url.as_ptr().cast(),
                    url.len(),
                    seconds(now),
                    out,
                    len,
                    needed,
                )
            }
        })?;
        Ok(Some(header).filter(|header| !header.is_empty()))
    }

    /// Returns the value of the `Cookie` header of a cross-site request for `url` at `now`, or
    /// `None`, draft-ietf-httpbis-rfc6265bis 5.8.3.
    ///
    /// Such a request comes from a page of another site, or from a page that is in a frame of one.
    /// The value is that of [`cookie_header`](CookieStore::cookie_header) without the cookies with
    /// SameSite=Strict, and without those with SameSite=Lax unless the request is a top-level
    /// navigation. This holds for any store, strict or not.
    ///
    /// # Errors
    ///
    /// Those of [`cookie_header`](CookieStore::cookie_header).
    pub fn cross_site_cookie_header(
        &self,
        url: &str,
        now: SystemTime,
        context: CrossSite,
    ) -> Result<Option<String>, Error> {
        let header = string(HEADER, |out, len, needed| {
            // SAFETY: see `CookieStore`.
            unsafe {
                sys::cookie_store_header_cross_site(
                    self.handle(),
                    url.as_ptr().cast(),
                    url.len(),
                    seconds(now),
                    context.flags(),
                    out,
                    len,
                    needed,
                )
            }
        })?;
        Ok(Some(header).filter(|header| !header.is_empty()))
    }

    /// Returns the value of the `Cookie` header of a request for `url` that a page made at `now`, or
    /// `None`.
    ///
    /// `page` is the URL of the page. If the two URLs are same-site, the value is that of
    /// [`cookie_header`](CookieStore::cookie_header) of a strict store, and else that of
    /// [`cross_site_cookie_header`](CookieStore::cross_site_cookie_header). They are same-site if they
    /// have the same scheme, and under the public suffix list of the store the same registrable
    /// domain, or the same host if that has none or there is no list.
    ///
    /// A page in a frame of a page of another site, and a request that a page of another site
    /// redirected, are cross-site: call
    /// [`cross_site_cookie_header`](CookieStore::cross_site_cookie_header).
    ///
    /// ```
    /// use pulleymaroon::{CookieStore, CrossSite};
    /// use std::time::SystemTime;
    ///
    /// let mut store = CookieStore::new()?;
    /// store.set_suffix_list("com\norg\n")?;
    /// let (url, now) = ("https://cdn.example.com/", SystemTime::now());
    /// store.parse("id=7; SameSite=Lax", url, now)?;
    /// let context = CrossSite { top_level: false, lax_by_default: true };
    /// let header = store.cookie_header_for(url, "https://example.com/", now, context)?;
    /// assert_eq!(header.as_deref(), Some("id=7"));
    /// assert_eq!(store.cookie_header_for(url, "https://example.org/", now, context)?, None);
    /// # Ok::<(), pulleymaroon::Error>(())
    /// ```
    ///
    /// # Errors
    ///
    /// Those of [`cookie_header`](CookieStore::cookie_header).
    pub fn cookie_header_for(
        &self,
        url: &str,
        page: &str,
        now: SystemTime,
        context: CrossSite,
    ) -> Result<Option<String>, Error> {
        let header = string(HEADER, |out, len, needed| {
            // SAFETY: see `CookieStore`.
            unsafe {
                sys::cookie_store_header_for(
                    self.handle(),
                    url.as_ptr().cast(),
                    url.len(),
                    page.as_ptr().cast(),
                    page.len(),
                    seconds(now),
                    context.flags(),
                    out,
                    len,
                    needed,
                )
            }
        })?;
        Ok(Some(header).filter(|header| !header.is_empty()))
    }

    /// Removes the cookie with this domain, path and name, expired or not, and returns whether there
    /// was one. The three are compared byte for byte with those of [`cookies`](CookieStore::cookies).
    pub fn remove(&mut self, domain: &str, path: &str, name: &str) -> bool {
        // SAFETY: see `CookieStore`.
        let status = unsafe {
            sys::cookie_store_remove(
                self.handle(),
                domain.as_ptr().cast(),
                domain.len(),
                path.as_ptr().cast(),
                path.len(),
                name.as_ptr().cast(),
                name.len(),
            )
        };
        status == sys::COOKIE_STORE_OK
    }

    /// Removes the cookies of this domain, host-only cookies and domain cookies, and returns their
    /// number. The others keep their order.
    ///
    /// The domain is compared byte for byte with those of [`cookies`](CookieStore::cookies).
    ///
    /// ```
    /// use pulleymaroon::CookieStore;
    /// use std::time::SystemTime;
    ///
    /// let mut store = CookieStore::new()?;
    /// let now = SystemTime::now();
    /// store.parse("id=7; Path=/", "https://example.com/", now)?;
    /// store.parse("id=8; Path=/", "https://www.example.com/", now)?;
    /// assert_eq!(store.remove_domain("example.com"), 1);
    /// assert!(store.contains("www.example.com", "/", "id")?);
    /// # Ok::<(), pulleymaroon::Error>(())
    /// ```
    pub fn remove_domain(&mut self, domain: &str) -> usize {
        let mut removed = 0;
        // The only error is that the handle is empty: a `str` is UTF-8.
        // SAFETY: see `CookieStore`.
        unsafe {
            sys::cookie_store_remove_domain(
                self.handle(),
                domain.as_ptr().cast(),
                domain.len(),
                &mut removed,
            )
        };
        removed
    }

    /// Inserts the cookies of another store, in its order, each as if its own domain had sent it at
    /// `now`, and returns how many are left out.
    ///
    /// Left out are those that [`parse`](CookieStore::parse) would reject, and those whose domain is not
    /// the host of a URL. A domain cookie whose domain is a public suffix on the list of this store becomes
    /// host-only. An expired cookie expires the stored one.
    ///
    /// # Errors
    ///
    /// [`Error::BadTime`]. [`Error::NoMemory`], after some of the cookies were inserted.
    pub fn merge(&mut self, other: &CookieStore, now: SystemTime) -> Result<usize, Error> {
        let mut left_out = 0;
        // SAFETY: see `CookieStore`. The two handles differ.
        let status = unsafe {
            sys::cookie_store_merge(self.handle(), other.handle(), seconds(now), &mut left_out)
        };
        check(status, 0)?;
        Ok(left_out)
    }

    /// Removes all cookies. The public suffix list and the limit stay, and a strict store stays
    /// strict.
    pub fn clear(&mut self) {
        // The only error is that the handle is empty.
        // SAFETY: see `CookieStore`.
        unsafe { sys::cookie_store_clear(self.handle()) };
    }

    /// Removes the cookies that have expired at `now`, and returns their number.
    ///
    /// They are never sent, but stay in the store until they are removed.
    ///
    /// # Errors
    ///
    /// [`Error::BadTime`].
    pub fn remove_expired(&mut self, now: SystemTime) -> Result<usize, Error> {
        let mut removed = 0;
        // SAFETY: see `CookieStore`.
        let status =
            unsafe { sys::cookie_store_remove_expired(self.handle(), seconds(now), &mut removed) };
        check(status, 0)?;
        Ok(removed)
    }

    /// Returns the number of stored cookies. Expired ones count until they are removed.
    pub fn len(&self) -> usize {
        // SAFETY: see `CookieStore`.
        unsafe { sys::cookie_store_count(self.handle()) }
    }

    /// Returns whether there are no stored cookies.
    pub fn is_empty(&self) -> bool {
        self.len() == 0
    }

    /// Returns the handle of the store, for a call.
    pub(crate) fn handle(&self) -> *mut sys::cookie_store {
        self.0.get()
    }

    /// Returns the store that `create(handle, key)` creates in an empty handle.
    pub(crate) fn create(
        create: impl FnOnce(&mut sys::cookie_store, &[u8]) -> Result<(), Error>,
    ) -> Result<CookieStore, Error> {
        let mut store = CookieStore::empty();
        create(store.0.get_mut(), &random_key())?;
        Ok(store)
    }

    /// Returns an empty handle.
    fn empty() -> CookieStore {
        CookieStore(UnsafeCell::new(sys::cookie_store {
            live: false,
            strict: false,
            at: ptr::null_mut(),
        }))
    }
}

/// Returns a random hash key.
///
/// `RandomState` is what std has of the random bytes of the system, and it cannot fail. The key is
/// to be unknown to servers, as that of a `HashMap` is.
fn random_key() -> [u8; 16] {
    let half = || u128::from(RandomState::new().build_hasher().finish());
    (half() << 64 | half()).to_ne_bytes()
}

#[cfg(test)]
mod tests {
    use super::{random_key, StoreAction};
    use crate::Error;

    #[test]
    fn each_success_is_an_action() {
        for (status, expected) in [
            (2, Ok(StoreAction::UpdatedExisting)),
            (9, Ok(StoreAction::Unexpected(9))),
            (13, Err(Error::Expired)),
        ] {
            assert_eq!(StoreAction::of(status), expected, "{status}");
        }
    }

    #[test]
    fn both_halves_of_a_key_are_random() {
        let (first, second) = (random_key(), random_key());
        assert_ne!(first[..8], second[..8]);
        assert_ne!(first[8..], second[8..]);
        assert_ne!(first[..8], first[8..]);
    }
}
