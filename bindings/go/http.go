//go:build cgo

package cookiestore

import (
	"net/http"
	"net/textproto"
	"net/url"
	"strings"
)

var _ http.CookieJar = (*Jar)(nil)

// SetCookies inserts the cookies of a response from u. It drops those for which Parse would return an error, all of them after
// Close, and passes each to Options.OnDropped.
//
// A cookie of a response is inserted by its Set-Cookie header as received (Raw): RFC 6265 reads more dates than net/http. A
// cookie that was made by hand, or whose fields were changed, is inserted by the header that its method String returns.
func (j *Jar) SetCookies(u *url.URL, cookies []*http.Cookie) {
	for _, cookie := range j.parseAll(u, cookies) {
		j.dropped(u, cookie.name, cookie.err)
	}
}

// droppedCookie is the name of a cookie that is not stored, and why.
type droppedCookie struct {
	name string
	err  error
}

// parseAll inserts cookies and returns those that are dropped.
func (j *Jar) parseAll(u *url.URL, cookies []*http.Cookie) (dropped []droppedCookie) {
	s := j.shardOf(u)
	s.mu.Lock()
	defer s.mu.Unlock()
	s.response.set(cookies)
	s.parseResponse(s.address(u), j.seconds())
	for i, cookie := range cookies {
		if err := errorOf(s.response.statuses[i], 0); err != nil {
			dropped = append(dropped, droppedCookie{cookie.Name, err})
		}
	}
	return dropped
}

// setCookie returns the Set-Cookie header value of a cookie.
func setCookie(cookie *http.Cookie) string {
	if isReceived(cookie) {
		return cookie.Raw
	}
	return cookie.String()
}

// SetCookieValue returns the Set-Cookie header value by which SetCookies inserts a cookie, for a http.CookieJar of your own over
// Parse or ParseFor.
func SetCookieValue(cookie *http.Cookie) string { return setCookie(cookie) }

// Cookies returns the names and values of the cookies of a request for u, in the order of Header. It returns nil if there are
// none, and on an error, such as ErrBadURL, or ErrClosed after Close. It passes that error, and each cookie that Header would
// leave out, to Options.OnDropped.
//
// A value is as received, but without double quotes around it, as net/http reads and writes cookies. Header returns the exact
// values.
func (j *Jar) Cookies(u *url.URL) []*http.Cookie {
	header, err := j.readHeader(u)
	if err != nil {
		j.dropped(u, "", err)
	}
	if header == "" {
		return nil
	}
	most := strings.Count(header, ";") + 1
	memory, cookies := make([]http.Cookie, most), make([]*http.Cookie, 0, most)
	for more := true; more; {
		var pair string
		pair, header, more = strings.Cut(header, pairSeparator)
		if j.isSent(u, pair) {
			cookie := &memory[len(cookies)]
			readPair(cookie, pair)
			cookies = append(cookies, cookie)
		}
	}
	if len(cookies) == 0 {
		return nil
	}
	return cookies
}

// readPair sets the name and the value of a cookie to those that net/http reads from a pair name=value.
func readPair(cookie *http.Cookie, pair string) {
	name, value, _ := strings.Cut(textproto.TrimString(pair), "=")
	value, quoted := unquoted(value)
	if isToken(name) && isValue(value) {
		cookie.Name, cookie.Value = name, value
		setQuoted(cookie, quoted)
		return
	}
	request := http.Request{Header: http.Header{"Cookie": {pair}}} // versions of net/http read other pairs differently
	if read := request.Cookies(); len(read) == 1 {
		*cookie = *read[0]
		return
	}
	cookie.Name, cookie.Value, _ = strings.Cut(pair, "=") // net/http cannot read it: it is not of a response
}
