//go:build cgo

package cookiestore

import (
	"net/http"
	"net/textproto"
	"strconv"
	"strings"
	"time"
)

// isReceived reports whether the fields of a cookie are those that net/http reads from its Raw, so that none was changed. It reads
// Raw as net/http does, but allocates nothing, unless a date or the number of a Max-Age is odd.
func isReceived(cookie *http.Cookie) bool {
	pair, rest, more := cut(textproto.TrimString(cookie.Raw), ';')
	name, value, found := cut(textproto.TrimString(pair), '=')
	if trimsName {
		name = textproto.TrimString(name)
	}
	value, isQuoted := unquoted(value)
	if !found || name != cookie.Name || value != cookie.Value || !isToken(name) || !isValue(value) {
		return false
	}
	var read attributes
	unparsed := 0
	for more {
		var part string
		part, rest, more = cut(rest, ';')
		part = textproto.TrimString(part)
		if part == "" || read.parse(part) {
			continue
		}
		if unparsed == len(cookie.Unparsed) || cookie.Unparsed[unparsed] != part {
			return false
		}
		unparsed++
	}
	if unparsed != len(cookie.Unparsed) || unparsed == 0 && cookie.Unparsed != nil {
		return false
	}
	quoted, partitioned := quotedAndPartitioned(cookie)
	return read == attributes{
		path: cookie.Path, domain: cookie.Domain, expires: cookie.Expires, rawExpires: cookie.RawExpires, maxAge: cookie.MaxAge,
		secure: cookie.Secure, httpOnly: cookie.HttpOnly, sameSite: cookie.SameSite, partitioned: partitioned,
	} && quoted == (isQuoted && hasQuoted)
}

// cut is strings.Cut at a byte, which is faster.
func cut(s string, at byte) (before, after string, found bool) {
	if i := strings.IndexByte(s, at); i >= 0 {
		return s[:i], s[i+1:], true
	}
	return s, "", false
}

// attributes are the fields of a cookie that come from attributes.
type attributes struct {
	path, domain, rawExpires string
	expires                  time.Time
	maxAge                   int
	secure, httpOnly         bool
	partitioned              bool
	sameSite                 http.SameSite
}

// parse sets the field of an attribute. It returns false if net/http adds the attribute to Unparsed.
func (a *attributes) parse(attribute string) bool {
	name, value, _ := cut(attribute, '=')
	if known, ok := a.set(name, value); known {
		return ok
	}
	var buffer [len("partitioned")]byte
	lower := buffer[:0]
	for i := 0; i < len(name); i++ {
		c := name[i]
		if c < ' ' || c > '~' {
			return true // net/http skips it
		}
		if 'A' <= c && c <= 'Z' {
			c += 'a' - 'A'
		}
		if i < len(buffer) {
			lower = append(lower, c)
		}
	}
	if len(name) > len(buffer) {
		return false
	}
	_, ok := a.set(string(lower), value)
	return ok
}

// set sets the field of the attribute of this name, in lower case or as it is mostly spelled. It reports whether there is one, and
// whether net/http can read the value.
func (a *attributes) set(name, value string) (known, ok bool) {
	switch name {
	case "path", "Path":
		if ok = isValue(value); ok {
			a.path = value
		}
	case "domain", "Domain":
		if ok = isValue(value); ok {
			a.domain = value
		}
	case "secure", "Secure":
		if ok = isValue(value); ok {
			a.secure = true
		}
	case "httponly", "HttpOnly":
		if ok = isValue(value); ok {
			a.httpOnly = true
		}
	case "samesite", "SameSite":
		if ok = isValue(value); ok {
			a.sameSite = parseSameSite(value)
		}
	case "partitioned", "Partitioned":
		if ok = hasQuoted && isValue(value); ok {
			a.partitioned = true
		}
	case "max-age", "Max-Age":
		var seconds int
		if seconds, ok = parseMaxAge(value); ok {
			a.maxAge = seconds
		}
	case "expires", "Expires":
		if expires, isGMT := parseGMT(value); isGMT {
			a.rawExpires, a.expires, ok = value, expires, true
		} else if isValue(value) {
			a.rawExpires = value
			a.expires, ok = parseDate(value)
		}
	default:
		return false, false
	}
	return true, ok
}

// parseMaxAge returns the field MaxAge of a Max-Age attribute, or false if net/http cannot read it.
func parseMaxAge(value string) (int, bool) {
	seconds, err := strconv.Atoi(value)
	if err != nil || seconds != 0 && value[0] == '0' {
		return 0, false
	}
	if seconds <= 0 {
		return -1, true
	}
	return seconds, true
}

func parseSameSite(value string) http.SameSite {
	switch {
	case strings.EqualFold(value, "Lax"):
		return http.SameSiteLaxMode
	case strings.EqualFold(value, "Strict"):
		return http.SameSiteStrictMode
	case strings.EqualFold(value, "None"):
		return http.SameSiteNoneMode
	}
	return http.SameSiteDefaultMode
}

// parseDate returns the time of an Expires attribute, or the zero time and false if net/http cannot read it.
func parseDate(value string) (time.Time, bool) {
	for _, layout := range [...]string{time.RFC1123, "Mon, 02-Jan-2006 15:04:05 MST"} {
		if t, err := time.Parse(layout, value); err == nil {
			return t.UTC(), true
		}
	}
	return time.Time{}, false
}

// parseGMT returns the time of a date such as "Mon, 02 Jan 2006 15:04:05 GMT", or one with hyphens in place of the spaces in
// "02 Jan 2006", or false: time.Parse reads more forms, and 29 February, but allocates.
func parseGMT(date string) (t time.Time, ok bool) {
	if len(date) != len(http.TimeFormat) || date[3:5] != ", " || date[7] != ' ' && date[7] != '-' || date[11] != date[7] ||
		date[16] != ' ' || date[19] != ':' || date[22] != ':' || date[25:] != " GMT" {
		return time.Time{}, false
	}
	switch date[:3] {
	case "Mon", "Tue", "Wed", "Thu", "Fri", "Sat", "Sun":
	default:
		return time.Time{}, false
	}
	month, days := monthOf(date[8:11])
	day, century, year := twoDigits(date[5:]), twoDigits(date[12:]), twoDigits(date[14:])
	hour, minute, second := twoDigits(date[17:]), twoDigits(date[20:]), twoDigits(date[23:])
	if day < 1 || day > days || century < 0 || year < 0 || hour < 0 || hour > 23 || minute < 0 || minute > 59 || second < 0 || second > 59 {
		return time.Time{}, false
	}
	return time.Date(century*100+year, month, day, hour, minute, second, 0, time.UTC), true
}

// monthOf returns the month of this name, and how many days it has each year, or 0 if there is none.
func monthOf(name string) (month time.Month, days int) {
	switch name {
	case "Jan":
		return time.January, 31
	case "Feb":
		return time.February, 28
	case "Mar":
		return time.March, 31
	case "Apr":
		return time.April, 30
	case "May":
		return time.May, 31
	case "Jun":
		return time.June, 30
	case "Jul":
		return time.July, 31
	case "Aug":
		return time.August, 31
	case "Sep":
		return time.September, 30
	case "Oct":
		return time.October, 31
	case "Nov":
		return time.November, 30
	case "Dec":
		return time.December, 31
	}
	return 0, 0
}

// twoDigits returns the number of the first two bytes, or -1.
func twoDigits(s string) int {
	tens, ones := s[0]-'0', s[1]-'0'
	if tens > 9 || ones > 9 {
		return -1
	}
	return int(tens)*10 + int(ones)
}

// unquoted returns a value without the double quotes around it, and whether it has them.
func unquoted(value string) (string, bool) {
	if len(value) > 1 && value[0] == '"' && value[len(value)-1] == '"' {
		return value[1 : len(value)-1], true
	}
	return value, false
}

// isToken reports whether net/http reads a cookie of this name: RFC 7230 3.2.6.
func isToken(s string) bool {
	for i := 0; i < len(s); i++ {
		if !tokenBytes[s[i]] {
			return false
		}
	}
	return s != ""
}

// isValue reports whether net/http reads a cookie or an attribute of this value.
func isValue(s string) bool {
	for i := 0; i < len(s); i++ {
		if !valueBytes[s[i]] {
			return false
		}
	}
	return true
}

var (
	tokenBytes = setOf("!#$%&'*+-.^_`|~0123456789" + letters)
	valueBytes = setOf(" !#$%&'()*+,-./0123456789:<=>?@[]^_`{|}~" + letters)
)

// trimsName is whether this version of net/http reads a cookie with white space between its name and the equals sign.
var trimsName = len((&http.Response{Header: http.Header{"Set-Cookie": {"a =1"}}}).Cookies()) == 1
