package cookiestore

// #include <cookie_store.h>
import "C"

import (
	"net/http"
	"time"
	"unsafe"
)

// Cookie is a stored cookie.
type Cookie struct {
	Domain  string
	Path    string
	Name    string
	Value   string
	Expires time.Time // the zero time for a session cookie

	HostOnly bool // sent to Domain alone, and not to the hosts below it
	Secure   bool
	HttpOnly bool
	SameSite http.SameSite // 0 without a SameSite attribute
}

// sameSites are the values of a SameSite attribute, by their numbers in cookie_store.h.
var sameSites = [...]http.SameSite{
	C.COOKIE_STORE_SAME_SITE_STRICT: http.SameSiteStrictMode,
	C.COOKIE_STORE_SAME_SITE_LAX:    http.SameSiteLaxMode,
	C.COOKIE_STORE_SAME_SITE_NONE:   http.SameSiteNoneMode,
}

// Len returns the number of stored cookies, expired ones included, and 0 after Close.
func (j *Jar) Len() int {
	j.lock()
	defer j.unlock()
	count := 0
	j.each(func(s *shard) error {
		count += int(C.cookie_store_count(&s.store))
		return nil
	})
	return count
}

// All returns the stored cookies, expired ones included, and nil after Close.
func (j *Jar) All() (cookies []Cookie) {
	j.lock()
	defer j.unlock()
	j.each(func(s *shard) error {
		cookies = append(cookies, s.all()...)
		return nil
	})
	return cookies
}

// all returns the cookies. The shard must be locked.
func (s *shard) all() []Cookie {
	rows, text := s.rows()
	if len(rows) == 0 {
		return nil
	}
	cookies := make([]Cookie, len(rows))
	for i, row := range rows {
		cookies[i] = Cookie{
			Domain:   takeFirst(&text, row.domain_len),
			Path:     takeFirst(&text, row.path_len),
			Name:     takeFirst(&text, row.name_len),
			Value:    takeFirst(&text, row.value_len),
			Expires:  expiry(row),
			HostOnly: bool(row.host_only),
			Secure:   bool(row.secure),
			HttpOnly: bool(row.http_only),
			SameSite: sameSites[row.same_site],
		}
	}
	return cookies
}

// Insert inserts a cookie by its parts, as if its own domain had sent it. Its Domain is in lower case and in Punycode, without a
// leading dot, and an empty Path stands for "/". A domain cookie of a public suffix becomes host-only, and an expired one expires
// the stored one.
//
// The status of the error is the reason if the cookie was rejected (see Status.IsRejection): ErrParse if no server can set it, as
// with a semicolon in its name or a Path that does not begin with "/", ErrDomainMismatch if its Domain is not the host of a URL.
// Or it is ErrBadOption (SameSite), ErrNotUTF8 or ErrBadTime (Expires).
func (j *Jar) Insert(cookie Cookie) error {
	if cookie.Path == "" {
		cookie.Path = "/"
	}
	row := C.cookie_store_row{
		host_only: C.bool(cookie.HostOnly),
		has_path:  true,
		secure:    C.bool(cookie.Secure),
		http_only: C.bool(cookie.HttpOnly),
		same_site: sameSiteNumber(cookie.SameSite),
	}
	if !cookie.Expires.IsZero() {
		row.persistent, row.expires = true, C.int64_t(cookie.Expires.Unix())
	}
	s := j.lockDomain(cookie.Domain)
	defer s.mu.Unlock()
	return errorOf(C.cookie_store_insert(&s.store, chars(cookie.Domain), size(cookie.Domain), chars(cookie.Path), size(cookie.Path),
		chars(cookie.Name), size(cookie.Name), chars(cookie.Value), size(cookie.Value), &row, j.seconds()), 0)
}

// sameSiteNumber returns the number of a SameSite attribute in cookie_store.h, or one that it has not.
func sameSiteNumber(sameSite http.SameSite) C.enum_cookie_store_same_site {
	if sameSite == http.SameSiteDefaultMode {
		sameSite = 0
	}
	for number, each := range sameSites {
		if each == sameSite {
			return C.enum_cookie_store_same_site(number)
		}
	}
	return C.enum_cookie_store_same_site(len(sameSites))
}

// rows returns the rows of cookie_store_rows, and their strings one after the other. The shard must be locked.
func (s *shard) rows() ([]C.cookie_store_row, string) {
	count, length := s.writeRows(make([]C.cookie_store_row, 1), make([]byte, 1))
	rows, text := make([]C.cookie_store_row, count+1), make([]byte, length+1)
	s.writeRows(rows, text)
	return rows[:count], view(text[:length])
}

// writeRows writes the rows and their strings if both fit, and returns how many rows and bytes there are: none after Close. The
// last item of each buffer is left free, so that the other ones may be none. The shard must be locked.
func (s *shard) writeRows(rows []C.cookie_store_row, text []byte) (count, length C.size_t) {
	C.cookie_store_rows(&s.store, &rows[0], C.size_t(len(rows)-1), (*C.char)(unsafe.Pointer(&text[0])), C.size_t(len(text)-1),
		&count, &length)
	return count, length
}

// takeFirst removes the first bytes of text and returns them.
func takeFirst(text *string, length C.size_t) string {
	head := (*text)[:length]
	*text = (*text)[length:]
	return head
}

func expiry(row C.cookie_store_row) time.Time {
	if !row.persistent {
		return time.Time{}
	}
	return time.Unix(int64(row.expires), 0).UTC()
}
