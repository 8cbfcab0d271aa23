//! A cookie provider for [`reqwest`] over the cookie store [`pulleymaroon`].
//!
//! ```
//! use std::sync::Arc;
//!
//! use pulleymaroon::CookieStore;
//! use pulleymaroon_reqwest::SharedStore;
//!
//! let store = Arc::new(SharedStore::new(CookieStore::new()?));
//! let client = reqwest::Client::builder().cookie_provider(store.clone()).build()?;
//!
//! // After some requests with `client`:
//! println!("{} cookies", store.lock().len());
//! # Ok::<(), Box<dyn std::error::Error>>(())
//! ```
#![warn(missing_docs)]
#![forbid(unsafe_code)]

use std::borrow::Cow;
use std::fmt;
use std::str;
use std::sync::{Mutex, MutexGuard, PoisonError};
use std::time::SystemTime;

use pulleymaroon::{CookieStore, Error};
use reqwest::header::HeaderValue;
use reqwest::Url;

/// A cookie store that the requests of a client share.
///
/// The calls of reqwest report no errors: a cookie that the store rejects is ignored, and a stored
/// cookie that has a control character is not sent. [`on_dropped`](SharedStore::on_dropped) sets a
/// function that is called for each of them.
///
/// The schemes `ws` and `wss` count as `http` and `https`: a WebSocket handshake is HTTP.
pub struct SharedStore {
    store: Mutex<CookieStore>,
    on_dropped: Option<OnDropped>,
}

type OnDropped = Box<dyn Fn(&Dropped<'_>) + Send + Sync>;

/// A cookie that was not stored or not sent, and why, without its value. Its `Display` form escapes
/// control characters of the name.
#[derive(Clone, Debug, PartialEq, Eq)]
#[non_exhaustive]
pub struct Dropped<'a> {
    /// The host of the URL, or an empty string if it has none.
    pub host: &'a str,
    /// The name of the cookie as it was received, or an empty string if a header value has no name, or
    /// if no cookie is sent because the URL is not valid.
    pub name: Cow<'a, str>,
    /// Why it was dropped. [`Error::Expired`] is harmless: a server expired a cookie that is not stored.
    /// [`Error::NotUtf8`] is of a header value, and [`Error::ControlCharacter`] also of a stored cookie.
    pub error: Error,
}

impl fmt::Display for Dropped<'_> {
    fn fmt(&self, f: &mut fmt::Formatter<'_>) -> fmt::Result {
        let Dropped { host, name, error } = self;
        write!(f, "{host}: cookie {name:?}: {error}")
    }
}

impl fmt::Debug for SharedStore {
    fn fmt(&self, f: &mut fmt::Formatter<'_>) -> fmt::Result {
        f.debug_struct("SharedStore").finish_non_exhaustive()
    }
}

impl SharedStore {
    /// Returns a shared store with the cookies of `store`.
    pub fn new(store: CookieStore) -> SharedStore {
        SharedStore {
            store: Mutex::new(store),
            on_dropped: None,
        }
    }

    /// Sets the function that is called for each cookie that the provider drops.
    ///
    /// Several threads may call it at once. The store is not locked meanwhile.
    ///
    /// ```
    /// # use pulleymaroon::CookieStore;
    /// # use pulleymaroon_reqwest::SharedStore;
    /// let store = SharedStore::new(CookieStore::new()?).on_dropped(|dropped| eprintln!("{dropped}"));
    /// # Ok::<(), pulleymaroon::Error>(())
    /// ```
    pub fn on_dropped(
        mut self,
        call: impl Fn(&Dropped<'_>) + Send + Sync + 'static,
    ) -> SharedStore {
        self.on_dropped = Some(Box::new(call));
        self
    }

    /// Locks the store. Requests wait until the guard is dropped.
    ///
    /// A thread that panicked with the guard leaves the store whole, so its lock is not poisoned.
    pub fn lock(&self) -> MutexGuard<'_, CookieStore> {
        self.store.lock().unwrap_or_else(PoisonError::into_inner)
    }

    /// Returns the store.
    pub fn into_inner(self) -> CookieStore {
        self.store
            .into_inner()
            .unwrap_or_else(PoisonError::into_inner)
    }

    /// Calls the function of `on_dropped`. The store must not be locked.
    fn report(&self, url: &Url, name: Cow<'_, str>, error: Error) {
        if let Some(call) = &self.on_dropped {
            let host = url.host_str().unwrap_or("");
            call(&Dropped { host, name, error });
        }
    }
}

impl reqwest::cookie::CookieStore for SharedStore {
    fn set_cookies(&self, set_cookies: &mut dyn Iterator<Item = &HeaderValue>, url: &Url) {
        let values: Vec<_> = set_cookies.collect();
        let received = self
            .lock()
            .receive(&values, &http_url(url), SystemTime::now());
        let received = received.unwrap_or_else(|error| {
            let errors = values.iter().map(|value| Err(error_of(value, error)));
            errors.collect()
        });
        for (value, received) in values.iter().zip(received) {
            if let Err(error) = received {
                self.report(url, name(value.as_bytes()), error);
            }
        }
    }

    fn cookies(&self, url: &Url) -> Option<HeaderValue> {
        let header = self.lock().cookie_header(&http_url(url), SystemTime::now());
        let header = match header {
            Ok(header) => header?,
            Err(error) => {
                self.report(url, Cow::Borrowed(""), error);
                return None;
            }
        };
        let mut sent = Vec::new();
        // No name and no value has a semicolon.
        for pair in header.split("; ") {
            if pair.contains(is_control) {
                self.report(url, name(pair.as_bytes()), Error::ControlCharacter);
            } else {
                sent.push(pair);
            }
        }
        let header = sent.join("; ");
        let header = HeaderValue::from_bytes(header.as_bytes()).ok();
        header.filter(|header| !header.is_empty())
    }
}

/// Returns the URL of the HTTP request, which a WebSocket handshake is too, RFC 6455 4.1.
fn http_url(url: &Url) -> Cow<'_, str> {
    match url.scheme() {
        "ws" | "wss" => url.as_str().replacen("ws", "http", 1).into(),
        _ => url.as_str().into(),
    }
}

/// Returns the error of a header value whose URL has this error.
fn error_of(value: &HeaderValue, error: Error) -> Error {
    match str::from_utf8(value.as_bytes()) {
        Ok(_) => error,
        Err(_) => Error::NotUtf8,
    }
}

/// Returns whether a header must not have the character.
fn is_control(character: char) -> bool {
    character.is_ascii_control() && character != '\t'
}

/// Returns the name of the cookie of a header value. Without a `=` the cookie has none: what stands
/// there may be a value.
fn name(value: &[u8]) -> Cow<'_, str> {
    let pair = value.split(|&byte| byte == b';').next().unwrap_or(b"");
    let name = match pair.iter().position(|&byte| byte == b'=') {
        Some(end) => &pair[..end],
        None => b"",
    };
    match String::from_utf8_lossy(name) {
        Cow::Borrowed(name) => name.trim().into(),
        Cow::Owned(name) => name.trim().to_owned().into(),
    }
}
