use std::time::SystemTime;

use crate::buffer::{grow, string};
use crate::error::check;
use crate::sys::{self, cookie_store_format, cookie_store_which};
use crate::time::seconds;
use crate::{CookieStore, Error};

/// A length that is enough for most cookies in a list.
const COOKIE: usize = 512;

/// The format of saved cookies.
#[derive(Clone, Copy, Debug, PartialEq, Eq)]
#[non_exhaustive]
pub enum Format {
    /// A list in JSON.
    Json,
    /// A list in RON.
    Ron,
    /// A `cookies.txt` file, the format of Netscape that curl, wget and Python's `MozillaCookieJar`
    /// read. It has no SameSite.
    Netscape,
}

impl Format {
    fn number(self) -> cookie_store_format {
        match self {
            Format::Json => sys::COOKIE_STORE_JSON,
            Format::Ron => sys::COOKIE_STORE_RON,
            Format::Netscape => sys::COOKIE_STORE_NETSCAPE,
        }
    }
}

/// Which cookies are saved or loaded.
#[derive(Clone, Copy, Debug, PartialEq, Eq)]
#[non_exhaustive]
pub enum Which {
    /// The persistent cookies that have not expired.
    Persistent,
    /// The cookies that have not expired, session cookies included. A login is usually one.
    Unexpired,
    /// All cookies.
    All,
}

impl Which {
    fn number(self) -> cookie_store_which {
        match self {
            Which::Persistent => sys::COOKIE_STORE_PERSISTENT,
            Which::Unexpired => sys::COOKIE_STORE_UNEXPIRED,
            Which::All => sys::COOKIE_STORE_ALL,
        }
    }
}

/// Saving and loading.
impl CookieStore {
    /// Returns cookies in a format, followed by a line feed. Which of them have expired is decided at
    /// `now`.
    ///
    /// In JSON and RON, a cookie that was received with SameSite=None and without Secure is Secure in
    /// the store that is loaded from the list.
    ///
    /// ```
    /// use pulleymaroon::{CookieStore, Format, Which};
    /// use std::time::SystemTime;
    ///
    /// let mut store = CookieStore::new()?;
    /// let now = SystemTime::now();
    /// store.parse("session=1", "https://example.com/", now)?;
    /// store.parse("lasting=2; Max-Age=60", "https://example.com/", now)?;
    ///
    /// for (which, wanted) in [
    ///     (Which::Unexpired, "session=1; lasting=2"),
    ///     (Which::Persistent, "lasting=2"),
    /// ] {
    ///     let list = store.to_text(Format::Json, which, now)?;
    ///     let loaded = CookieStore::from_text(&list, Format::Json, Which::Unexpired, now)?;
    ///     assert_eq!(loaded.cookie_header("https://example.com/", now)?.as_deref(), Some(wanted));
    /// }
    /// # Ok::<(), pulleymaroon::Error>(())
    /// ```
    ///
    /// # Errors
    ///
    /// [`Error::BadTime`], [`Error::BadExpiry`] (JSON and RON), [`Error::Unrepresentable`]
    /// (`cookies.txt`), [`Error::NoMemory`].
    pub fn to_text(&self, format: Format, which: Which, now: SystemTime) -> Result<String, Error> {
        let (text, _) = self.save(format.number(), which, now)?;
        Ok(text)
    }

    /// Returns cookies as a `cookies.txt` file, as [`to_text`](CookieStore::to_text) does, without
    /// those that the format cannot represent, and the number of these.
    ///
    /// # Errors
    ///
    /// [`Error::BadTime`], [`Error::NoMemory`].
    pub fn to_text_lenient(&self, which: Which, now: SystemTime) -> Result<(String, usize), Error> {
        self.save(sys::COOKIE_STORE_NETSCAPE_LENIENT, which, now)
    }

    /// Returns cookies in a format, and the number of those that are left out.
    fn save(
        &self,
        format: cookie_store_format,
        which: Which,
        now: SystemTime,
    ) -> Result<(String, usize), Error> {
        let mut left_out = 0;
        let text = string(self.list_len(), |out, len, needed| {
            // SAFETY: see `CookieStore`.
            unsafe {
                sys::cookie_store_save(
                    self.handle(),
                    format,
                    which.number(),
                    seconds(now),
                    out,
                    len,
                    needed,
                    &mut left_out,
                )
            }
        })?;
        Ok((text, left_out))
    }

    /// Returns a length that is enough for most lists. A longer one is written twice.
    fn list_len(&self) -> usize {
        self.len().saturating_mul(COOKIE).max(COOKIE)
    }

    /// Creates a store with cookies in a format. Which of them have expired is decided at `now`.
    ///
    /// The store has no public suffix list and no limit, and is not strict. The domains of the
    /// cookies are not checked. A cookie replaces an earlier one of the text with the same domain,
    /// path and name.
    ///
    /// # Errors
    ///
    /// [`Error::BadTime`]; of JSON [`Error::BadJson`], [`Error::BadShape`], [`Error::BadExpiry`] and
    /// [`Error::Parse`]; of RON [`Error::BadRon`], [`Error::BadExpiry`] and [`Error::Parse`]; of a
    /// `cookies.txt` file [`Error::BadLine`]; [`Error::NoMemory`].
    pub fn from_text(
        text: &str,
        format: Format,
        which: Which,
        now: SystemTime,
    ) -> Result<CookieStore, Error> {
        let (store, _) = CookieStore::load(text, format.number(), which, now, &mut [0])?;
        Ok(store)
    }

    /// Creates a store with cookies of a `cookies.txt` file, as [`from_text`](CookieStore::from_text)
    /// does, without the malformed lines, and returns the numbers of these, counted from 1.
    ///
    /// # Errors
    ///
    /// [`Error::BadTime`], [`Error::NoMemory`].
    pub fn from_text_lenient(
        text: &str,
        which: Which,
        now: SystemTime,
    ) -> Result<(CookieStore, Vec<usize>), Error> {
        let mut lines = Vec::new();
        grow(&mut lines, text.matches('\n').count() + 1)?;
        let format = sys::COOKIE_STORE_NETSCAPE_LENIENT;
        let (store, malformed) = CookieStore::load(text, format, which, now, &mut lines)?;
        lines.truncate(malformed);
        Ok((store, lines))
    }

    /// Creates a store and returns the number of malformed lines. Their numbers are written to
    /// `lines`, which must not be empty.
    fn load(
        text: &str,
        format: cookie_store_format,
        which: Which,
        now: SystemTime,
        lines: &mut [usize],
    ) -> Result<(CookieStore, usize), Error> {
        let mut malformed = 0;
        let store = CookieStore::create(|store, key| {
            // SAFETY: see `CookieStore`.
            let status = unsafe {
                sys::cookie_store_load(
                    store,
                    key.as_ptr().cast(),
                    key.len(),
                    format,
                    which.number(),
                    text.as_ptr().cast(),
                    text.len(),
                    seconds(now),
                    lines.as_mut_ptr(),
                    lines.len(),
                    &mut malformed,
                )
            };
            check(status, lines[0])
        })?;
        Ok((store, malformed))
    }
}
