package cookiestore

// #include <cookie_store.h>
import "C"

import "fmt"

// Status is the reason of an error, with the numbers of cookie_store.h. It is an error itself: errors.Is(err, ErrPublicSuffix)
// reports whether a cookie was rejected because its domain is a public suffix.
type Status int

// The cookie was rejected.
const (
	// The scheme of the URL does not begin with "http", and the cookie, or the unexpired one that it would replace or expire,
	// is HttpOnly.
	ErrNonHTTPScheme Status = C.COOKIE_STORE_NON_HTTP_SCHEME
	// The host of the URL does not domain-match the Domain attribute, RFC 6265 5.1.3. Of Insert: the Domain is not the host of a
	// URL.
	ErrDomainMismatch Status = C.COOKIE_STORE_DOMAIN_MISMATCH
	// The cookie has expired, and no unexpired one with its domain, path and name is stored.
	ErrExpired Status = C.COOKIE_STORE_EXPIRED
	// The header value is not a cookie, or its Domain attribute is not a domain name. Of a list to load: an entry is not a cookie.
	// Of Insert: no server can set the cookie.
	ErrParse Status = C.COOKIE_STORE_PARSE
	// The domain of the cookie is a public suffix by the list of the jar, and is not the host of the URL. In a strict jar with
	// a list: it is above the site of that host.
	ErrPublicSuffix Status = C.COOKIE_STORE_PUBLIC_SUFFIX
)

// The cookie was rejected by a strict jar.
const (
	// The header value has a control character other than HTAB. Of Options.OnDropped also: a stored cookie has one, in a jar
	// that is not strict, and is not sent.
	ErrControlCharacter Status = C.COOKIE_STORE_CONTROL_CHARACTER
	// The name and the value together are longer than 4,096 bytes.
	ErrTooLong Status = C.COOKIE_STORE_TOO_LONG
	// The cookie is Secure, and the URL is not secure.
	ErrInsecureURL Status = C.COOKIE_STORE_INSECURE_URL
	// The cookie has SameSite=None and is not Secure.
	ErrInsecureSameSiteNone Status = C.COOKIE_STORE_INSECURE_SAME_SITE_NONE
	// The name begins with __Secure-, __Host-, __Http- or __Host-Http-, and the cookie lacks what the prefix demands.
	ErrPrefix Status = C.COOKIE_STORE_PREFIX
	// Neither the cookie nor the URL is secure, and the cookie would overlay a stored Secure one.
	ErrSecureStored Status = C.COOKIE_STORE_SECURE_STORED
	// The cookie is not Secure, and its domain has as many unexpired Secure cookies as the domain limit allows.
	ErrSecureLimit Status = C.COOKIE_STORE_SECURE_LIMIT
	// The response is to a cross-site request that is not a top-level navigation, and the cookie is not SameSite=None. Of ParseFor
	// alone, which follows the rules of a strict jar.
	ErrCrossSiteResponse Status = C.COOKIE_STORE_CROSS_SITE_RESPONSE
)

// The call failed.
const (
	// The jar is closed.
	ErrClosed Status = C.COOKIE_STORE_NO_STORE
	// Out of memory.
	ErrNoMemory Status = C.COOKIE_STORE_NO_MEMORY
	// The URL is not valid or has no host, or the library could read another host from it than net/http connects to.
	ErrBadURL Status = C.COOKIE_STORE_BAD_URL
	// A string is not UTF-8.
	ErrNotUTF8 Status = C.COOKIE_STORE_NOT_UTF8
	// No cookie with this domain, path and name is stored.
	ErrNotFound Status = C.COOKIE_STORE_NOT_FOUND
	// The domain limit or the number of shards is negative.
	ErrBadLimit Status = C.COOKIE_STORE_BAD_LIMIT
	// An expiry is not in the years -9999 to 9999.
	ErrBadTime Status = C.COOKIE_STORE_BAD_TIME
	// A Format, a Which or a SameSite is none of the constants. Of New: more than one shard of a jar that is not strict or has no
	// list.
	ErrBadOption Status = C.COOKIE_STORE_BAD_OPTION
	// A line of the public suffix list is not a rule.
	ErrBadRule Status = C.COOKIE_STORE_BAD_RULE
	// The public suffix list has no rules.
	ErrNoRules Status = C.COOKIE_STORE_NO_RULES
	// The jar has no public suffix list.
	ErrNoList Status = C.COOKIE_STORE_NO_LIST
	// A list to load is not JSON.
	ErrBadJSON Status = C.COOKIE_STORE_BAD_JSON
	// A list to load is JSON, but not a list of cookies.
	ErrBadShape Status = C.COOKIE_STORE_BAD_SHAPE
	// A list to load is not a list of cookies in RON.
	ErrBadRON Status = C.COOKIE_STORE_BAD_RON
	// An expiry of a list to load is not a valid date and time, or one to save is before the year 0.
	ErrBadExpiry Status = C.COOKIE_STORE_BAD_EXPIRY
	// A line of a cookies.txt file to load is neither a cookie nor a comment nor blank.
	ErrBadLine Status = C.COOKIE_STORE_BAD_LINE
	// A cookies.txt file cannot represent one of the cookies to save.
	ErrUnrepresentable Status = C.COOKIE_STORE_UNREPRESENTABLE
)

// String describes the status in a few words.
func (s Status) String() string {
	switch s {
	case ErrClosed:
		return "the jar is closed"
	case ErrBadLimit:
		return "negative domain limit or number of shards"
	}
	return C.GoString(C.cookie_store_status_text(C.enum_cookie_store_status(s)))
}

// Error returns the text of String with the name of the package.
func (s Status) Error() string { return "cookiestore: " + s.String() }

// IsRejection reports whether the cookie was rejected. Otherwise the call failed. It holds of statuses that only a newer library
// has too.
func (s Status) IsRejection() bool {
	return s >= 10 && s < 20 || s >= 40 && s < 100
}

// Error is an error of the store, such as a rejected cookie.
type Error struct {
	Status Status
	Line   int // the first malformed line, counted from 1, of ErrBadRule and ErrBadLine; else 0
}

func (e *Error) Error() string {
	if e.Line > 0 {
		return fmt.Sprintf("%v (line %d)", e.Status, e.Line)
	}
	return e.Status.Error()
}

// Unwrap returns the status, for errors.Is.
func (e *Error) Unwrap() error { return e.Status }

// errorOf returns the error of a status, or nil if it is a success.
func errorOf(status C.enum_cookie_store_status, line C.size_t) error {
	if status < 10 {
		return nil
	}
	return &Error{Status(status), int(line)}
}
