package cookiestore

// #include <cookie_store.h>
import "C"

import "net/url"

// CrossSite describes a cross-site request. That of the zero value is no top-level navigation, and cookies without a SameSite
// attribute are treated as SameSite=Lax, as by browsers.
type CrossSite struct {
	// TopLevel is whether the request is a top-level navigation: for HeaderFor with a safe method, such as a link that is
	// followed, and for ParseFor with any.
	TopLevel bool

	// NoneByDefault is whether a cookie without a SameSite attribute is treated as SameSite=None.
	NoneByDefault bool
}

// flags returns the flags of the library.
func (c CrossSite) flags() C.uint32_t {
	flags := C.uint32_t(C.COOKIE_STORE_CROSS_SITE)
	if c.TopLevel {
		flags |= C.COOKIE_STORE_TOP_LEVEL
	}
	if c.NoneByDefault {
		flags |= C.COOKIE_STORE_NONE_BY_DEFAULT
	}
	return flags
}

// HeaderFor returns the value of the Cookie header of a request for u that a page made, or "" if none is to be sent.
//
// If the URL of the page is not same-site with u, the request is the one that crossSite describes: it has no cookies with
// SameSite=Strict, and those with SameSite=Lax only if it is a top-level navigation. Two URLs are same-site if they have the same
// scheme, and under the list of the jar the same registrable domain, or the same host if that has none or there is no list. A
// same-site request has the cookies that Header of a strict jar returns.
//
// A request is cross-site too if its page is in a frame of a page of another site, or if a page of another site redirected it: pass
// the URL of a page that is not same-site with u. For a request that no page made, call Header.
//
// Cookies with a control character are left out as by Header.
//
// Errors: ErrBadURL (either URL; a page has a host), ErrNotUTF8.
func (j *Jar) HeaderFor(u, page *url.URL, crossSite CrossSite) (string, error) {
	from := view(appendAddress(nil, page))
	s := j.shardOf(u)
	header, err := s.read(u, j.seconds(), func(url string, now C.int64_t, out *C.char, room C.size_t) C.enum_cookie_store_status {
		return C.cookie_store_header_for(&s.store, chars(url), size(url), chars(from), size(from), now, crossSite.flags(), out, room,
			&s.needed)
	})
	if err != nil {
		return "", err
	}
	return j.withoutControls(u, header), nil
}

// ParseFor parses a Set-Cookie header value of the response to a request for u that a page made, and inserts the cookie under the
// rules of Options.Strict, whether the jar is strict or not.
//
// If the URL of the page is not same-site with u, as for HeaderFor, the request is the one that crossSite describes. Then a cookie
// that is not SameSite=None is rejected by ErrCrossSiteResponse, unless the request is a top-level navigation. The other errors
// are those of Parse in a strict jar; ErrBadURL and ErrNotUTF8 may be of either URL.
func (j *Jar) ParseFor(u, page *url.URL, setCookie string, crossSite CrossSite) error {
	from := view(appendAddress(nil, page))
	s := j.shardOf(u)
	s.mu.Lock()
	defer s.mu.Unlock()
	url := s.address(u)
	status := C.cookie_store_parse_for(&s.store, chars(url), size(url), chars(from), size(from), chars(setCookie), size(setCookie),
		j.seconds(), crossSite.flags())
	return errorOf(status, 0)
}
