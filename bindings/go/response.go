package cookiestore

// #include <cookie_store.h>
//
// // The handle is passed as bytes, as in jar.go.
// static enum cookie_store_status parse_each(char *store, const char *url, size_t url_len, const char *values, size_t values_len,
// 	const size_t *lens, size_t count, int64_t now, enum cookie_store_status *statuses) {
// 	return cookie_store_parse_each((cookie_store *)store, url, url_len, values, values_len, lens, count, now, statuses, count);
// }
import "C"

import "net/http"

// response has the Set-Cookie header values of a response, one after the other, their lengths and their statuses.
type response struct {
	values   []byte
	lens     []C.size_t
	statuses []C.enum_cookie_store_status
}

// set replaces the header values by those of other cookies.
func (r *response) set(cookies []*http.Cookie) {
	r.values, r.lens, r.statuses = r.values[:0], r.lens[:0], r.statuses[:0]
	for _, cookie := range cookies {
		value := setCookie(cookie)
		r.values = append(r.values, value...)
		r.lens = append(r.lens, size(value))
		r.statuses = append(r.statuses, C.COOKIE_STORE_OK)
	}
}

// parseResponse parses the header values of s.response and sets their statuses to what parse returns for each. The shard must be
// locked.
func (s *shard) parseResponse(url string, now C.int64_t) {
	r := &s.response
	if len(r.lens) == 0 {
		return
	}
	values := view(r.values)
	status := C.parse_each(s.handle(), chars(url), size(url), chars(values), size(values), &r.lens[0], C.size_t(len(r.lens)), now,
		&r.statuses[0])
	if status != C.COOKIE_STORE_OK {
		s.parseAlone(url, values, now)
	}
}

// parseAlone sets the statuses after an error of the whole call, such as ErrBadURL: a header value that is not UTF-8 has that error.
func (s *shard) parseAlone(url, values string, now C.int64_t) {
	for i, length := range s.response.lens {
		s.response.statuses[i] = s.parse(url, values[:length], now)
		values = values[length:]
	}
}
