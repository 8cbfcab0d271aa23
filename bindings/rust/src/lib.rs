//! An HTTP cookie store after RFC 6265, for clients: it parses `Set-Cookie` header values, keeps the
//! cookies, and returns the `Cookie` header of a request.
//!
//! The crate calls the C library cookie_store, whose functions are proved; the crate is tested.
//! README.md says how to install it. `pulleymaroon-reqwest` has a cookie provider for reqwest.
//!
//! ```
//! use pulleymaroon::{CookieStore, StoreAction};
//! use std::time::{Duration, SystemTime};
//!
//! let mut store = CookieStore::new()?;
//! let now = SystemTime::now();
//! let action = store.parse("id=7; Path=/; Max-Age=60", "https://example.com/login", now)?;
//! assert_eq!(action, StoreAction::Inserted);
//! assert_eq!(store.cookie_header("https://example.com/", now)?.as_deref(), Some("id=7"));
//!
//! let later = now + Duration::from_secs(60);
//! assert_eq!(store.cookie_header("https://example.com/", later)?, None);
//! # Ok::<(), pulleymaroon::Error>(())
//! ```
//!
//! A rejected cookie is an error, which a client ignores:
//!
//! ```
//! use pulleymaroon::{CookieStore, Error};
//! use std::time::SystemTime;
//!
//! let mut store = CookieStore::new()?;
//! store.set_suffix_list("com\nco.uk\n")?;
//! let error = store
//!     .parse("id=7; Domain=co.uk", "https://example.co.uk/", SystemTime::now())
//!     .unwrap_err();
//! assert_eq!(error, Error::PublicSuffix);
//! assert!(error.is_rejection());
//! # Ok::<(), pulleymaroon::Error>(())
//! ```
#![warn(missing_docs)]
#![deny(unsafe_op_in_unsafe_fn)]

mod buffer;
mod cookie;
mod cookies;
mod error;
mod roots;
mod saved;
mod sharded;
mod store;
pub mod sys;
mod time;

pub use cookie::{Cookie, SameSite};
pub use cookies::Iter;
pub use error::Error;
pub use roots::shard;
pub use saved::{Format, Which};
pub use sharded::ShardedStore;
pub use store::{CookieStore, CrossSite, StoreAction, SYSTEM_SUFFIX_FILE};

#[cfg(doctest)]
#[doc = include_str!("../README.md")]
struct Readme;
