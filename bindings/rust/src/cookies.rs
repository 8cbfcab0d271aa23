use std::fmt;
use std::iter::FusedIterator;
use std::os::raw::c_char;
use std::time::SystemTime;
use std::vec::IntoIter;

use crate::buffer::{grow, owned, string, HEADER};
use crate::sys::{self, cookie_store_row, cookie_store_status};
use crate::time::{seconds, time_at};
use crate::{Cookie, CookieStore, Error, SameSite};

/// A number of rows that is enough for most requests.
const ROWS: usize = 16;

/// Reading the stored cookies.
impl CookieStore {
    /// Returns the cookie with this domain, path and name, expired or not, or `None` if there is no
    /// such cookie.
    ///
    /// The three are compared byte for byte with those of [`cookies`](CookieStore::cookies). Takes
    /// time in proportion to the number of stored cookies.
    ///
    /// ```
    /// use pulleymaroon::CookieStore;
    /// use std::time::{Duration, SystemTime};
    ///
    /// let mut store = CookieStore::new()?;
    /// let now = SystemTime::now();
    /// store.parse("id=7; Path=/; Max-Age=60", "https://example.com/login", now)?;
    ///
    /// let cookie = store.get("example.com", "/", "id")?.unwrap();
    /// assert_eq!(cookie.value, "7");
    /// assert!(!cookie.is_expired(now));
    /// assert!(cookie.is_expired(now + Duration::from_secs(60)));
    /// assert_eq!(store.get("example.com", "/login", "id")?, None);
    /// # Ok::<(), pulleymaroon::Error>(())
    /// ```
    ///
    /// # Errors
    ///
    /// [`Error::NoMemory`].
    pub fn get(&self, domain: &str, path: &str, name: &str) -> Result<Option<Cookie>, Error> {
        let mut all = self.iter()?;
        while let Some(row) = all.next_row() {
            let row = row?;
            if (row.domain, row.path, row.name) == (domain, path, name) {
                return row.into_cookie().map(Some);
            }
        }
        Ok(None)
    }

    /// Returns whether a cookie with this domain, path and name is stored, expired or not. All else is
    /// as in [`get`](CookieStore::get).
    ///
    /// ```
    /// use pulleymaroon::CookieStore;
    /// use std::time::SystemTime;
    ///
    /// let mut store = CookieStore::new()?;
    /// store.parse("id=7; Path=/", "https://example.com/", SystemTime::now())?;
    /// assert!(store.contains("example.com", "/", "id")?);
    /// assert!(!store.contains("www.example.com", "/", "id")?);
    /// # Ok::<(), pulleymaroon::Error>(())
    /// ```
    ///
    /// # Errors
    ///
    /// [`Error::NoMemory`].
    pub fn contains(&self, domain: &str, path: &str, name: &str) -> Result<bool, Error> {
        Ok(self.get(domain, path, name)?.is_some())
    }

    /// Returns an iterator over all cookies, expired ones included, in the order of the store.
    ///
    /// It has the cookies that are stored now: the store may change meanwhile.
    ///
    /// ```
    /// use pulleymaroon::{CookieStore, SameSite};
    /// use std::time::SystemTime;
    ///
    /// let mut store = CookieStore::new()?;
    /// store.parse("id=7; Path=/; SameSite=Lax", "https://example.com/", SystemTime::now())?;
    /// for cookie in store.iter()? {
    ///     let cookie = cookie?;
    ///     println!("{}: {}={}", cookie.domain, cookie.name, cookie.value);
    ///     assert_eq!(cookie.same_site, Some(SameSite::Lax));
    /// }
    /// # Ok::<(), pulleymaroon::Error>(())
    /// ```
    ///
    /// # Errors
    ///
    /// [`Error::NoMemory`].
    pub fn iter(&self) -> Result<Iter, Error> {
        read(0, 0, |rows, out, len, rows_needed, needed| {
            // SAFETY: see `CookieStore`.
            unsafe {
                sys::cookie_store_rows(
                    self.handle(),
                    rows.as_mut_ptr(),
                    rows.len(),
                    out,
                    len,
                    rows_needed,
                    needed,
                )
            }
        })
    }

    /// Returns all cookies, expired ones included, in the order of the store.
    ///
    /// # Errors
    ///
    /// [`Error::NoMemory`].
    pub fn cookies(&self) -> Result<Vec<Cookie>, Error> {
        self.iter()?.into_cookies()
    }

    /// Returns the cookies of a request for `url` at `now`, in the order of the `Cookie` header,
    /// RFC 6265 5.4: those of [`cookie_header`](CookieStore::cookie_header).
    ///
    /// ```
    /// use pulleymaroon::CookieStore;
    /// use std::time::SystemTime;
    ///
    /// let mut store = CookieStore::new()?;
    /// let now = SystemTime::now();
    /// store.parse("lang=de; Path=/", "https://example.com/", now)?;
    /// store.parse("id=7; Path=/shop; HttpOnly", "https://example.com/", now)?;
    /// store.parse("other=1", "https://example.org/", now)?;
    ///
    /// let cookies = store.cookies_for("https://example.com/shop/cart", now)?;
    /// let names: Vec<_> = cookies.iter().map(|cookie| cookie.name.as_str()).collect();
    /// assert_eq!(names, ["id", "lang"]);
    /// assert!(cookies[0].http_only);
    /// # Ok::<(), pulleymaroon::Error>(())
    /// ```
    ///
    /// # Errors
    ///
    /// [`Error::BadTime`], [`Error::BadUrl`], [`Error::NoMemory`].
    pub fn cookies_for(&self, url: &str, now: SystemTime) -> Result<Vec<Cookie>, Error> {
        let cookies = read(ROWS, HEADER, |rows, out, len, rows_needed, needed| {
            // SAFETY: see `CookieStore`.
            unsafe {
                sys::cookie_store_cookies_for(
                    self.handle(),
                    url.as_ptr().cast(),
                    url.len(),
                    seconds(now),
                    rows.as_mut_ptr(),
                    rows.len(),
                    out,
                    len,
                    rows_needed,
                    needed,
                )
            }
        })?;
        cookies.into_cookies()
    }
}

/// Returns an iterator over the rows that `write(rows, strings, strings_len, rows_needed,
/// strings_needed)` writes: to buffers that are `rows_len` and `strings_len` long, and if one of them is
/// too short, to those of the lengths that they need.
fn read(
    rows_len: usize,
    strings_len: usize,
    mut write: impl FnMut(
        &mut [cookie_store_row],
        *mut c_char,
        usize,
        &mut usize,
        &mut usize,
    ) -> cookie_store_status,
) -> Result<Iter, Error> {
    let mut rows: Vec<cookie_store_row> = Vec::new();
    let mut rows_needed = rows_len;
    let strings = string(strings_len, |out, len, needed| {
        if grow(&mut rows, rows_needed).is_err() {
            return sys::COOKIE_STORE_NO_MEMORY;
        }
        write(&mut rows, out, len, &mut rows_needed, needed)
    })?;
    rows.truncate(rows_needed);
    Ok(Iter {
        rows: rows.into_iter(),
        strings,
        start: 0,
    })
}

/// An iterator over the cookies of a store, which [`CookieStore::iter`] returns.
///
/// Each cookie is copied when it is reached, and the item is [`Error::NoMemory`] if there is no memory
/// for the copy.
pub struct Iter {
    rows: IntoIter<cookie_store_row>,
    /// The strings of all rows, one after the other.
    strings: String,
    /// Where the strings of the next row start.
    start: usize,
}

/// Shows nothing of the cookies.
impl fmt::Debug for Iter {
    fn fmt(&self, f: &mut fmt::Formatter<'_>) -> fmt::Result {
        f.debug_struct("Iter").finish_non_exhaustive()
    }
}

impl Iterator for Iter {
    type Item = Result<Cookie, Error>;

    fn next(&mut self) -> Option<Self::Item> {
        let row = self.next_row()?;
        Some(row.and_then(Row::into_cookie))
    }

    fn size_hint(&self) -> (usize, Option<usize>) {
        self.rows.size_hint()
    }
}

impl ExactSizeIterator for Iter {}

impl FusedIterator for Iter {}

impl Iter {
    /// Returns the cookies.
    fn into_cookies(self) -> Result<Vec<Cookie>, Error> {
        let mut cookies = Vec::new();
        cookies
            .try_reserve_exact(self.len())
            .map_err(|_| Error::NoMemory)?;
        for cookie in self {
            cookies.push(cookie?);
        }
        Ok(cookies)
    }

    /// Returns the next row.
    fn next_row(&mut self) -> Option<Result<Row<'_>, Error>> {
        let row = self.rows.next()?;
        let [domain, path, name, value] =
            [row.domain_len, row.path_len, row.name_len, row.value_len].map(|len| {
                let start = self.start;
                self.start += len;
                self.strings.get(start..self.start)
            });
        let row = match (domain, path, name, value) {
            (Some(domain), Some(path), Some(name), Some(value)) => Ok(Row {
                row,
                domain,
                path,
                name,
                value,
            }),
            _ => Err(Error::Unexpected(sys::COOKIE_STORE_NOT_UTF8)),
        };
        Some(row)
    }
}

/// A row with its strings.
struct Row<'a> {
    row: cookie_store_row,
    domain: &'a str,
    path: &'a str,
    name: &'a str,
    value: &'a str,
}

impl Row<'_> {
    fn into_cookie(self) -> Result<Cookie, Error> {
        let row = self.row;
        Ok(Cookie {
            domain: owned(self.domain)?,
            path: owned(self.path)?,
            name: owned(self.name)?,
            value: owned(self.value)?,
            expires: row.persistent.then(|| time_at(row.expires)),
            host_only: row.host_only,
            has_path: row.has_path,
            secure: row.secure,
            http_only: row.http_only,
            same_site: SameSite::of(row.same_site),
        })
    }
}
