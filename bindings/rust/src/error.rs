use std::{fmt, io};

use crate::sys;

/// Why a call failed. The store is unchanged, except by [`merge`](crate::CookieStore::merge).
#[derive(Clone, Copy, Debug, PartialEq, Eq)]
#[non_exhaustive]
pub enum Error {
    /// The scheme of the URL does not begin with `http`, and the cookie, or the unexpired one that
    /// it would replace or expire, is HttpOnly.
    NonHttpScheme,
    /// The cookie has no Domain attribute, or an empty one, and the URL has no host.
    NonRelativeScheme,
    /// The host of the URL does not domain-match the Domain attribute, RFC 6265 5.1.3, or the URL
    /// has no host; or the domain of a cookie to insert is not the host of a URL.
    DomainMismatch,
    /// The cookie has expired, and no unexpired one with its domain, path and name is stored.
    Expired,
    /// The header value is not a cookie, or its Domain attribute is not a domain name; or a list to
    /// load has an entry that is not a cookie; or no server can set a cookie to insert.
    Parse,
    /// The domain of the cookie is a public suffix, and is not the host of the URL. In a strict store
    /// with a list: it is above the site of that host.
    PublicSuffix,

    /// Strict store: the header value, or the name or value of a cookie to insert, has a control
    /// character other than HTAB.
    ControlCharacter,
    /// Strict store: the name and the value together are longer than 4,096 bytes.
    TooLong,
    /// Strict store: the cookie is Secure, and the URL is not secure: its scheme is not `https`, and
    /// its host is not this machine.
    InsecureUrl,
    /// Strict store: the cookie has SameSite=None and is not Secure.
    InsecureSameSiteNone,
    /// Strict store: the name begins with `__Secure-`, `__Host-`, `__Http-` or `__Host-Http-`, and the
    /// cookie lacks what the prefix demands.
    Prefix,
    /// Strict store: neither the cookie nor the URL is secure, and the cookie would overlay a stored
    /// Secure cookie.
    SecureStored,
    /// Strict store: the cookie is not Secure, and its domain has as many unexpired Secure cookies as
    /// the domain limit allows.
    SecureLimit,
    /// The response is to a cross-site request that is not a top-level navigation, and the cookie is
    /// not SameSite=None.
    CrossSiteResponse,

    /// Out of memory.
    NoMemory,
    /// The URL is not valid, or parsers read different hosts from it.
    BadUrl,
    /// A string is not UTF-8. Most methods of this crate take `&str`: only what reads files and headers
    /// returns it.
    NotUtf8,
    /// The time is not in the years -9999 to 9999.
    BadTime,
    /// A line of the public suffix list is not a rule.
    BadRule {
        /// The number of the first malformed line, from 1.
        line: usize,
    },
    /// The public suffix list has no rules.
    NoRules,
    /// The store has no public suffix list.
    NoList,
    /// The list to load is not JSON.
    BadJson,
    /// The list to load is JSON, but not a list of cookies.
    BadShape,
    /// The list to load is not a list of cookies in RON.
    BadRon,
    /// A list to load has an expiry that is not a date and time; or a cookie to save expires before
    /// the year 0, which a list cannot represent.
    BadExpiry,
    /// A line of a `cookies.txt` file is neither a cookie nor a comment nor blank.
    BadLine {
        /// The number of the first malformed line, from 1.
        line: usize,
    },
    /// A `cookies.txt` file cannot represent a cookie to save.
    Unrepresentable,
    /// A status that this version of the crate does not expect, from another version of the library.
    Unexpected(u32),
}

impl Error {
    /// Returns whether a cookie was rejected, RFC 6265 5.3, or by the rules of a strict store. A user
    /// agent ignores such a cookie.
    pub fn is_rejection(&self) -> bool {
        matches!(
            self,
            Error::NonHttpScheme
                | Error::NonRelativeScheme
                | Error::DomainMismatch
                | Error::Expired
                | Error::Parse
                | Error::PublicSuffix
                | Error::ControlCharacter
                | Error::TooLong
                | Error::InsecureUrl
                | Error::InsecureSameSiteNone
                | Error::Prefix
                | Error::SecureStored
                | Error::SecureLimit
                | Error::CrossSiteResponse
                | Error::Unexpected(10..=19 | 40..=99)
        )
    }

    /// Returns the error of a status. `line` is the line that the call reports, if it reports one.
    pub(crate) fn new(status: sys::cookie_store_status, line: usize) -> Error {
        match status {
            sys::COOKIE_STORE_NON_HTTP_SCHEME => Error::NonHttpScheme,
            sys::COOKIE_STORE_NON_RELATIVE_SCHEME => Error::NonRelativeScheme,
            sys::COOKIE_STORE_DOMAIN_MISMATCH => Error::DomainMismatch,
            sys::COOKIE_STORE_EXPIRED => Error::Expired,
            sys::COOKIE_STORE_PARSE => Error::Parse,
            sys::COOKIE_STORE_PUBLIC_SUFFIX => Error::PublicSuffix,
            sys::COOKIE_STORE_CONTROL_CHARACTER => Error::ControlCharacter,
            sys::COOKIE_STORE_TOO_LONG => Error::TooLong,
            sys::COOKIE_STORE_INSECURE_URL => Error::InsecureUrl,
            sys::COOKIE_STORE_INSECURE_SAME_SITE_NONE => Error::InsecureSameSiteNone,
            sys::COOKIE_STORE_PREFIX => Error::Prefix,
            sys::COOKIE_STORE_SECURE_STORED => Error::SecureStored,
            sys::COOKIE_STORE_SECURE_LIMIT => Error::SecureLimit,
            sys::COOKIE_STORE_CROSS_SITE_RESPONSE => Error::CrossSiteResponse,
            sys::COOKIE_STORE_NO_MEMORY => Error::NoMemory,
            sys::COOKIE_STORE_BAD_URL => Error::BadUrl,
            sys::COOKIE_STORE_NOT_UTF8 => Error::NotUtf8,
            sys::COOKIE_STORE_BAD_TIME => Error::BadTime,
            sys::COOKIE_STORE_BAD_RULE => Error::BadRule { line },
            sys::COOKIE_STORE_NO_RULES => Error::NoRules,
            sys::COOKIE_STORE_NO_LIST => Error::NoList,
            sys::COOKIE_STORE_BAD_JSON => Error::BadJson,
            sys::COOKIE_STORE_BAD_SHAPE => Error::BadShape,
            sys::COOKIE_STORE_BAD_RON => Error::BadRon,
            sys::COOKIE_STORE_BAD_EXPIRY => Error::BadExpiry,
            sys::COOKIE_STORE_BAD_LINE => Error::BadLine { line },
            sys::COOKIE_STORE_UNREPRESENTABLE => Error::Unrepresentable,
            status => Error::Unexpected(status),
        }
    }
}

impl fmt::Display for Error {
    fn fmt(&self, f: &mut fmt::Formatter<'_>) -> fmt::Result {
        f.write_str(match self {
            Error::NonHttpScheme => "HttpOnly, and the URL is not HTTP",
            Error::NonRelativeScheme => "no Domain attribute, and no host in the URL",
            Error::DomainMismatch => "the host does not match the cookie's domain",
            Error::Expired => "the cookie has expired",
            Error::Parse => "not a cookie",
            Error::PublicSuffix => "the domain is a public suffix",
            Error::ControlCharacter => "a control character in the header value",
            Error::TooLong => "name and value are longer than 4,096 bytes",
            Error::InsecureUrl => "Secure, and the URL is not secure",
            Error::InsecureSameSiteNone => "SameSite=None, and not Secure",
            Error::Prefix => "lacks what the prefix of its name demands",
            Error::SecureStored => "a Secure cookie with its name is stored",
            Error::SecureLimit => "the domain has its limit of Secure cookies",
            Error::CrossSiteResponse => "not SameSite=None, of a cross-site response",
            Error::NoMemory => "out of memory",
            Error::BadUrl => "not a valid URL",
            Error::NotUtf8 => "not UTF-8",
            Error::BadTime => "the time is out of range",
            Error::BadRule { line } => {
                return write!(f, "a line of the list is not a rule (line {line})")
            }
            Error::NoRules => "the public suffix list has no rules",
            Error::NoList => "the store has no public suffix list",
            Error::BadJson => "not JSON",
            Error::BadShape => "JSON, but not a list of cookies",
            Error::BadRon => "not a list of cookies in RON",
            Error::BadExpiry => "an expiry is not valid or not representable",
            Error::BadLine { line } => {
                return write!(f, "a line of the file is not a cookie (line {line})")
            }
            Error::Unrepresentable => "the format cannot represent a cookie",
            Error::Unexpected(status) => return write!(f, "unexpected status {status}"),
        })
    }
}

impl std::error::Error for Error {}

/// The error of a file with such content: [`InvalidData`](io::ErrorKind::InvalidData), or
/// [`OutOfMemory`](io::ErrorKind::OutOfMemory).
impl From<Error> for io::Error {
    fn from(error: Error) -> io::Error {
        let kind = match error {
            Error::NoMemory => io::ErrorKind::OutOfMemory,
            _ => io::ErrorKind::InvalidData,
        };
        io::Error::new(kind, error)
    }
}

/// Returns the error of a status other than OK.
pub(crate) fn check(status: sys::cookie_store_status, line: usize) -> Result<(), Error> {
    match status {
        sys::COOKIE_STORE_OK => Ok(()),
        status => Err(Error::new(status, line)),
    }
}

#[cfg(test)]
mod tests {
    use super::*;

    /// The statuses that the other tests do not reach.
    #[test]
    fn statuses_are_errors() {
        let table = [
            (sys::COOKIE_STORE_OK, Ok(())),
            (sys::COOKIE_STORE_NO_MEMORY, Err(Error::NoMemory)),
            (sys::COOKIE_STORE_NO_STORE, Err(Error::Unexpected(24))),
            (99, Err(Error::Unexpected(99))),
        ];
        for (status, expected) in table {
            assert_eq!(check(status, 0), expected, "{status}");
        }
        for (error, expected) in [
            (Error::NoMemory, false),
            (Error::Unexpected(19), true),
            (Error::NoRules, false),
            (Error::NotUtf8, false),
            (Error::NoList, false),
            (Error::Unexpected(39), false),
            (Error::CrossSiteResponse, true),
            (Error::Unexpected(48), true),
            (Error::Unexpected(99), true),
            (Error::Unexpected(100), false),
        ] {
            assert_eq!(error.is_rejection(), expected, "{error}");
        }
    }

    #[test]
    fn errors_of_files_have_a_kind() {
        let error = io::Error::from(Error::BadRule { line: 2 });
        assert_eq!(error.kind(), io::ErrorKind::InvalidData);
        assert_eq!(
            error.to_string(),
            "a line of the list is not a rule (line 2)"
        );
        let error = io::Error::from(Error::NoMemory);
        assert_eq!(error.kind(), io::ErrorKind::OutOfMemory);
    }

    /// The texts are those of `cookie_store_status_text`.
    #[test]
    fn texts_agree() {
        let header = include_str!("../../c/cookie_store.h");
        let texts = header
            .lines()
            .filter_map(|line| line.trim().strip_prefix("case COOKIE_STORE_"));
        for (name, text) in texts.filter_map(|case| case.split_once(": return \"")) {
            let (_, number) = header.split_once(&format!("{name} = ")).expect(name);
            let number = number.split([',', '\n']).next().unwrap().parse().unwrap();
            let error = Error::new(number, 1);
            if !matches!(error, Error::Unexpected(_)) {
                let own = error.to_string().replace(" (line 1)", "");
                assert_eq!(format!("{own}\";"), text, "{name}");
            }
        }
    }
}
