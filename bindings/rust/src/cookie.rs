use std::time::SystemTime;

use crate::sys::{self, cookie_store_row, cookie_store_same_site};
use crate::time::seconds;

/// The SameSite attribute of a cookie: which cross-site requests have it,
/// draft-ietf-httpbis-rfc6265bis 5.8.3.
#[derive(Clone, Copy, Debug, PartialEq, Eq, Hash)]
#[non_exhaustive]
pub enum SameSite {
    /// None.
    Strict,
    /// Top-level navigations with a safe method, such as a link that is followed.
    Lax,
    /// All.
    None,
}

impl SameSite {
    /// Returns the attribute of a number.
    pub(crate) fn of(number: cookie_store_same_site) -> Option<SameSite> {
        match number {
            sys::COOKIE_STORE_SAME_SITE_STRICT => Some(SameSite::Strict),
            sys::COOKIE_STORE_SAME_SITE_LAX => Some(SameSite::Lax),
            sys::COOKIE_STORE_SAME_SITE_NONE => Some(SameSite::None),
            _ => None,
        }
    }

    fn number(same_site: Option<SameSite>) -> cookie_store_same_site {
        match same_site {
            None => sys::COOKIE_STORE_SAME_SITE_ABSENT,
            Some(SameSite::Strict) => sys::COOKIE_STORE_SAME_SITE_STRICT,
            Some(SameSite::Lax) => sys::COOKIE_STORE_SAME_SITE_LAX,
            Some(SameSite::None) => sys::COOKIE_STORE_SAME_SITE_NONE,
        }
    }
}

/// A cookie of a store, or one for [`CookieStore::insert`](crate::CookieStore::insert), which
/// [`new`](Cookie::new) returns. Its `Debug` form shows the value.
#[derive(Clone, Debug, PartialEq, Eq)]
#[non_exhaustive]
pub struct Cookie {
    /// The domain, without a leading dot.
    pub domain: String,
    /// The path.
    pub path: String,
    /// The name.
    pub name: String,
    /// The value.
    pub value: String,
    /// The expiry time, rounded down to a whole second, or `None` for a session cookie.
    /// A cookie that another one expired has the Unix epoch.
    pub expires: Option<SystemTime>,
    /// A host-only cookie, sent to that host alone. Otherwise it is also sent to the hosts below its
    /// domain.
    pub host_only: bool,
    /// The path comes from a Path attribute.
    pub has_path: bool,
    /// Secure.
    pub secure: bool,
    /// HttpOnly.
    pub http_only: bool,
    /// SameSite, or `None` without such an attribute.
    pub same_site: Option<SameSite>,
}

impl Cookie {
    /// Returns a session cookie of a domain and the hosts below it, for all paths: without Secure,
    /// HttpOnly and SameSite. Its fields may be set.
    pub fn new(
        name: impl Into<String>,
        value: impl Into<String>,
        domain: impl Into<String>,
    ) -> Cookie {
        Cookie {
            domain: domain.into(),
            path: "/".into(),
            name: name.into(),
            value: value.into(),
            expires: None,
            host_only: false,
            has_path: true,
            secure: false,
            http_only: false,
            same_site: None,
        }
    }

    /// Returns all but the strings, without their lengths.
    pub(crate) fn to_row(&self) -> cookie_store_row {
        cookie_store_row {
            expires: self.expires.map_or(0, seconds),
            persistent: self.expires.is_some(),
            host_only: self.host_only,
            has_path: self.has_path,
            secure: self.secure,
            http_only: self.http_only,
            same_site: SameSite::number(self.same_site),
            ..Default::default()
        }
    }

    /// Returns whether the cookie has expired at `now`: its expiry time is `now` or earlier.
    pub fn is_expired(&self, now: SystemTime) -> bool {
        self.expires.map_or(false, |expires| expires <= now)
    }
}
