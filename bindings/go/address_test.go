package cookiestore

import (
	"math/rand"
	"net"
	"net/url"
	"regexp"
	"strings"
	"testing"
)

var numeric = regexp.MustCompile(`(^|\.)([0-9]+|0[xX][0-9A-Fa-f]*)\.?$`)

// addressByString is appendAddress by a regular expression and String alone.
func addressByString(u *url.URL) string {
	if strings.Contains(u.Scheme, ":") || !sentTo(u.Opaque, u.Host) {
		return ""
	}
	host := asciiHost(u.Host)
	if name := (&url.URL{Host: host}).Hostname(); name == "" || numeric.MatchString(name) && net.ParseIP(name) == nil {
		return ""
	}
	scheme := strings.ToLower(u.Scheme)
	if scheme == "ws" || scheme == "wss" {
		scheme = "http" + scheme[2:]
	}
	return (&url.URL{Scheme: scheme, Host: host, Path: u.Path, RawPath: u.RawPath}).String()
}

func TestAddress(t *testing.T) {
	const rounds = 20000
	random := rand.New(rand.NewSource(1))
	join := func(most int, from ...string) string {
		var joined []string
		for i := random.Intn(most + 1); i > 0; i-- {
			joined = append(joined, from[random.Intn(len(from))])
		}
		return strings.Join(joined, "")
	}
	addresses := 0
	for i := 0; i < rounds; i++ {
		u := &url.URL{
			Scheme:  join(1, "http", "https", "HTTPS", "ws", "Wss", "ftp", "a:b"),
			Host:    join(5, "example", "a", ".", ".", "1", "127", "0x", "0X7f", "0", "ff", ":", ":80", "[::1]", "-", "_", "%", "/", "é", " ", "\n", "@"),
			Path:    join(4, "/", "/", "/", "a", "b.c", "*", " ", "%", "é", "~", "?", ";", "//"),
			RawPath: join(1, "", "", "/a", "/%2F", "%zz"),
		}
		if random.Intn(10) == 0 {
			u.Opaque = join(2, "//", "/a", "example", u.Host)
		}
		got, want := string(appendAddress(nil, u)), addressByString(u)
		if got != want {
			t.Fatalf("%+v: %q, want %q", u, got, want)
		}
		if got != "" {
			addresses++
		}
	}
	if addresses < rounds/10 {
		t.Errorf("only %d URLs have an address", addresses)
	}
}
