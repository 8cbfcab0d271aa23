//go:build cgo

package cookiestore

import (
	"context"
	"net"
	"net/http"
	"net/url"
	"strings"
)

// address returns the URL as the library takes it, or "" if there is none from which the library reads the host that net/http
// connects to, which is u.Host. Only what matters to cookies is in it. A WebSocket handshake is a request by HTTP, RFC 6455 4.1.
//
// The string is in a buffer of the shard, which must be locked while it is used.
func (s *shard) address(u *url.URL) string {
	s.url = appendAddress(s.url[:0], u)
	return view(s.url)
}

// appendAddress appends that string to b.
func appendAddress(b []byte, u *url.URL) []byte {
	if u == nil || strings.Contains(u.Scheme, ":") || !sentTo(u.Opaque, u.Host) {
		return b
	}
	host, plain := u.Host, isPlain(u.Host, ':')
	if !plain {
		host = asciiHost(host)
	}
	if name := (&url.URL{Host: host}).Hostname(); name == "" || isNumeric(name) && net.ParseIP(name) == nil {
		return b
	}
	scheme := strings.ToLower(u.Scheme)
	switch scheme {
	case "ws":
		scheme = "http"
	case "wss":
		scheme = "https"
	}
	if plain && scheme != "" && strings.HasPrefix(u.Path, "/") && u.RawPath == "" && isPlain(u.Path, '/') {
		return append(append(append(append(b, scheme...), "://"...), host...), u.Path...) // as String, but faster
	}
	// String escapes what would end the host, and the library takes no host with an escape.
	return append(b, (&url.URL{Scheme: scheme, Host: host, Path: u.Path, RawPath: u.RawPath}).String()...)
}

// isPlain reports whether s has only letters, digits, dots, hyphens, underscores and the other character.
func isPlain(s string, other byte) bool {
	for i := 0; i < len(s); i++ {
		if c := s[i]; !plainBytes[c] && c != other {
			return false
		}
	}
	return true
}

const letters = "ABCDEFGHIJKLMNOPQRSTUVWXYZabcdefghijklmnopqrstuvwxyz"

var plainBytes = setOf("-._0123456789" + letters)

// setOf returns whether each byte is one of these.
func setOf(bytes string) (set [256]bool) {
	for i := 0; i < len(bytes); i++ {
		set[bytes[i]] = true
	}
	return set
}

// sentTo reports whether a request for a URL with this Opaque and Host goes to that host. Opaque is what the request line has, or
// what follows the scheme there: if it is no path, it may have another host, to which a proxy connects.
func sentTo(opaque, host string) bool {
	if strings.HasPrefix(opaque, "//") {
		authority, _, _ := strings.Cut(opaque[2:], "/")
		return strings.EqualFold(authority, host)
	}
	return opaque == "" || opaque[0] == '/'
}

// isNumeric reports whether a URL can only have this host if it is an IPv4 address, such as 127.1 and 0x7f.1 for 127.0.0.1. To
// net/http those are names.
func isNumeric(host string) bool {
	host = strings.TrimSuffix(host, ".")
	label := host[strings.LastIndexByte(host, '.')+1:]
	if label == "" || label[0] < '0' || label[0] > '9' {
		return false
	}
	if len(label) > 1 && (label[:2] == "0x" || label[:2] == "0X") {
		return strings.Trim(label[2:], "0123456789ABCDEFabcdef") == ""
	}
	return strings.Trim(label, "0123456789") == ""
}

// asciiHost returns the host, with its port, of an internationalized domain name as net/http connects to it. The mapping of
// net/http is not exported, but a dialer gets its result. Newer versions of Go send another Host header.
func asciiHost(host string) string {
	if strings.IndexFunc(host, func(r rune) bool { return r >= 0x80 }) < 0 {
		return host
	}
	dialed := ""
	transport := &http.Transport{DialContext: func(_ context.Context, _, address string) (net.Conn, error) {
		dialed = address
		return nil, net.ErrClosed
	}}
	request := &http.Request{URL: &url.URL{Scheme: "http", Host: host}, Header: http.Header{}}
	if response, err := transport.RoundTrip(request); err == nil {
		response.Body.Close()
	}
	return dialed
}
