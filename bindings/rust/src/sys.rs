//! The declarations of `cookie_store.h`, which documents them.
//!
//! [`CookieStore`](crate::CookieStore) is a safe wrapper of all of them, except that it chooses the
//! hash key itself.
#![allow(non_camel_case_types, missing_docs)]

use std::os::raw::{c_char, c_uint, c_void};

pub type cookie_store_status = c_uint;

pub const COOKIE_STORE_OK: cookie_store_status = 0;
pub const COOKIE_STORE_INSERTED: cookie_store_status = 1;
pub const COOKIE_STORE_UPDATED: cookie_store_status = 2;
pub const COOKIE_STORE_EXPIRED_EXISTING: cookie_store_status = 3;
pub const COOKIE_STORE_NON_HTTP_SCHEME: cookie_store_status = 10;
pub const COOKIE_STORE_NON_RELATIVE_SCHEME: cookie_store_status = 11;
pub const COOKIE_STORE_DOMAIN_MISMATCH: cookie_store_status = 12;
pub const COOKIE_STORE_EXPIRED: cookie_store_status = 13;
pub const COOKIE_STORE_PARSE: cookie_store_status = 14;
pub const COOKIE_STORE_PUBLIC_SUFFIX: cookie_store_status = 15;
pub const COOKIE_STORE_UNSPECIFIED_DOMAIN: cookie_store_status = 16;
pub const COOKIE_STORE_NO_MEMORY: cookie_store_status = 20;
pub const COOKIE_STORE_BAD_URL: cookie_store_status = 21;
pub const COOKIE_STORE_NOT_UTF8: cookie_store_status = 22;
pub const COOKIE_STORE_BAD_TIME: cookie_store_status = 23;
pub const COOKIE_STORE_NO_STORE: cookie_store_status = 24;
pub const COOKIE_STORE_HAS_STORE: cookie_store_status = 25;
pub const COOKIE_STORE_NO_ROOM: cookie_store_status = 26;
pub const COOKIE_STORE_NOT_FOUND: cookie_store_status = 27;
pub const COOKIE_STORE_BAD_LIMIT: cookie_store_status = 28;
pub const COOKIE_STORE_BAD_OPTION: cookie_store_status = 29;
pub const COOKIE_STORE_BAD_RULE: cookie_store_status = 30;
pub const COOKIE_STORE_BAD_JSON: cookie_store_status = 31;
pub const COOKIE_STORE_BAD_SHAPE: cookie_store_status = 32;
pub const COOKIE_STORE_BAD_RON: cookie_store_status = 33;
pub const COOKIE_STORE_BAD_EXPIRY: cookie_store_status = 34;
pub const COOKIE_STORE_BAD_LINE: cookie_store_status = 35;
pub const COOKIE_STORE_UNREPRESENTABLE: cookie_store_status = 36;
pub const COOKIE_STORE_NO_RULES: cookie_store_status = 37;
pub const COOKIE_STORE_NO_LIST: cookie_store_status = 38;
pub const COOKIE_STORE_CONTROL_CHARACTER: cookie_store_status = 40;
pub const COOKIE_STORE_TOO_LONG: cookie_store_status = 41;
pub const COOKIE_STORE_INSECURE_URL: cookie_store_status = 42;
pub const COOKIE_STORE_INSECURE_SAME_SITE_NONE: cookie_store_status = 43;
pub const COOKIE_STORE_PREFIX: cookie_store_status = 44;
pub const COOKIE_STORE_SECURE_STORED: cookie_store_status = 45;
pub const COOKIE_STORE_SECURE_LIMIT: cookie_store_status = 46;
pub const COOKIE_STORE_CROSS_SITE_RESPONSE: cookie_store_status = 47;

pub type cookie_store_cross_site = c_uint;

pub const COOKIE_STORE_CROSS_SITE: cookie_store_cross_site = 0;
pub const COOKIE_STORE_TOP_LEVEL: cookie_store_cross_site = 1;
pub const COOKIE_STORE_NONE_BY_DEFAULT: cookie_store_cross_site = 2;

pub type cookie_store_same_site = c_uint;

pub const COOKIE_STORE_SAME_SITE_ABSENT: cookie_store_same_site = 0;
pub const COOKIE_STORE_SAME_SITE_STRICT: cookie_store_same_site = 1;
pub const COOKIE_STORE_SAME_SITE_LAX: cookie_store_same_site = 2;
pub const COOKIE_STORE_SAME_SITE_NONE: cookie_store_same_site = 3;

pub type cookie_store_format = c_uint;

pub const COOKIE_STORE_JSON: cookie_store_format = 0;
pub const COOKIE_STORE_RON: cookie_store_format = 1;
pub const COOKIE_STORE_NETSCAPE: cookie_store_format = 2;
pub const COOKIE_STORE_NETSCAPE_LENIENT: cookie_store_format = 3;

pub type cookie_store_which = c_uint;

pub const COOKIE_STORE_ALL: cookie_store_which = 0;
pub const COOKIE_STORE_UNEXPIRED: cookie_store_which = 1;
pub const COOKIE_STORE_PERSISTENT: cookie_store_which = 2;

#[repr(C)]
#[derive(Debug)]
pub struct cookie_store {
    pub live: bool,
    pub strict: bool,
    pub at: *mut c_void,
}

#[repr(C)]
#[derive(Clone, Copy, Debug, Default)]
pub struct cookie_store_row {
    pub domain_len: usize,
    pub path_len: usize,
    pub name_len: usize,
    pub value_len: usize,
    pub expires: i64,
    pub persistent: bool,
    pub host_only: bool,
    pub has_path: bool,
    pub secure: bool,
    pub http_only: bool,
    pub same_site: cookie_store_same_site,
}

extern "C" {
    pub fn cookie_store_new(
        store: *mut cookie_store,
        key: *const c_char,
        key_len: usize,
    ) -> cookie_store_status;
    pub fn cookie_store_clone(
        store: *mut cookie_store,
        copy: *mut cookie_store,
    ) -> cookie_store_status;
    pub fn cookie_store_free(store: *mut cookie_store);
    pub fn cookie_store_set_suffix_list(
        store: *mut cookie_store,
        list: *const c_char,
        list_len: usize,
        only_listed: bool,
        bad_line: *mut usize,
    ) -> cookie_store_status;
    pub fn cookie_store_set_domain_limit(
        store: *mut cookie_store,
        limit: usize,
    ) -> cookie_store_status;
    pub fn cookie_store_domain_limit(store: *mut cookie_store) -> usize;
    pub fn cookie_store_set_strict(store: *mut cookie_store, strict: bool) -> cookie_store_status;
    pub fn cookie_store_is_strict(store: *mut cookie_store) -> bool;
    pub fn cookie_store_set_hash_key(
        store: *mut cookie_store,
        key: *const c_char,
        key_len: usize,
    ) -> cookie_store_status;
    pub fn cookie_store_parse(
        store: *mut cookie_store,
        url: *const c_char,
        url_len: usize,
        value: *const c_char,
        value_len: usize,
        now: i64,
    ) -> cookie_store_status;
    pub fn cookie_store_parse_each(
        store: *mut cookie_store,
        url: *const c_char,
        url_len: usize,
        values: *const c_char,
        values_len: usize,
        lens: *const usize,
        lens_len: usize,
        now: i64,
        statuses: *mut cookie_store_status,
        statuses_len: usize,
    ) -> cookie_store_status;
    pub fn cookie_store_parse_for(
        store: *mut cookie_store,
        url: *const c_char,
        url_len: usize,
        page: *const c_char,
        page_len: usize,
        value: *const c_char,
        value_len: usize,
        now: i64,
        request: u32,
    ) -> cookie_store_status;
    pub fn cookie_store_header(
        store: *mut cookie_store,
        url: *const c_char,
        url_len: usize,
        now: i64,
        out: *mut c_char,
        out_len: usize,
        needed: *mut usize,
    ) -> cookie_store_status;
    pub fn cookie_store_header_cross_site(
        store: *mut cookie_store,
        url: *const c_char,
        url_len: usize,
        now: i64,
        request: u32,
        out: *mut c_char,
        out_len: usize,
        needed: *mut usize,
    ) -> cookie_store_status;
    pub fn cookie_store_header_for(
        store: *mut cookie_store,
        url: *const c_char,
        url_len: usize,
        page: *const c_char,
        page_len: usize,
        now: i64,
        request: u32,
        out: *mut c_char,
        out_len: usize,
        needed: *mut usize,
    ) -> cookie_store_status;
    pub fn cookie_store_remove(
        store: *mut cookie_store,
        domain: *const c_char,
        domain_len: usize,
        path: *const c_char,
        path_len: usize,
        name: *const c_char,
        name_len: usize,
    ) -> cookie_store_status;
    pub fn cookie_store_remove_domain(
        store: *mut cookie_store,
        domain: *const c_char,
        domain_len: usize,
        removed: *mut usize,
    ) -> cookie_store_status;
    pub fn cookie_store_clear(store: *mut cookie_store) -> cookie_store_status;
    pub fn cookie_store_remove_expired(
        store: *mut cookie_store,
        now: i64,
        removed: *mut usize,
    ) -> cookie_store_status;
    pub fn cookie_store_count(store: *mut cookie_store) -> usize;
    pub fn cookie_store_rows(
        store: *mut cookie_store,
        rows: *mut cookie_store_row,
        rows_len: usize,
        strings: *mut c_char,
        strings_len: usize,
        rows_needed: *mut usize,
        strings_needed: *mut usize,
    ) -> cookie_store_status;
    pub fn cookie_store_cookies_for(
        store: *mut cookie_store,
        url: *const c_char,
        url_len: usize,
        now: i64,
        rows: *mut cookie_store_row,
        rows_len: usize,
        strings: *mut c_char,
        strings_len: usize,
        rows_needed: *mut usize,
        strings_needed: *mut usize,
    ) -> cookie_store_status;
    pub fn cookie_store_insert(
        store: *mut cookie_store,
        domain: *const c_char,
        domain_len: usize,
        path: *const c_char,
        path_len: usize,
        name: *const c_char,
        name_len: usize,
        value: *const c_char,
        value_len: usize,
        row: *const cookie_store_row,
        now: i64,
    ) -> cookie_store_status;
    pub fn cookie_store_save(
        store: *mut cookie_store,
        format: cookie_store_format,
        which: cookie_store_which,
        now: i64,
        out: *mut c_char,
        out_len: usize,
        needed: *mut usize,
        left_out: *mut usize,
    ) -> cookie_store_status;
    pub fn cookie_store_load(
        store: *mut cookie_store,
        key: *const c_char,
        key_len: usize,
        format: cookie_store_format,
        which: cookie_store_which,
        list: *const c_char,
        list_len: usize,
        now: i64,
        lines: *mut usize,
        lines_len: usize,
        malformed: *mut usize,
    ) -> cookie_store_status;
    pub fn cookie_store_merge(
        store: *mut cookie_store,
        from: *mut cookie_store,
        now: i64,
        left_out: *mut usize,
    ) -> cookie_store_status;
    pub fn cookie_store_root(
        store: *mut cookie_store,
        url: *const c_char,
        url_len: usize,
        out: *mut c_char,
        out_len: usize,
        needed: *mut usize,
    ) -> cookie_store_status;
    pub fn cookie_store_root_of_domain(
        store: *mut cookie_store,
        domain: *const c_char,
        domain_len: usize,
        out: *mut c_char,
        out_len: usize,
        needed: *mut usize,
    ) -> cookie_store_status;
    pub fn cookie_store_shard(
        root: *const c_char,
        root_len: usize,
        shards: u32,
        shard: *mut u32,
    ) -> cookie_store_status;
}
