package cookiestore

import (
	"fmt"
	"net/http"
	"reflect"
	"strings"
	"testing"
	"time"
)

// TestInsert inserts cookies into jars of their own, reads them and sends them.
func TestInsert(t *testing.T) {
	for _, row := range []struct {
		cookie   Cookie
		to, want string
	}{
		{Cookie{Name: "a", Value: "1", Domain: "example.com", Path: "/"}, "http://deep.example.com/", "a=1"},
		{Cookie{Name: "a", Value: "1", Domain: "example.com", Path: "/", HostOnly: true}, "http://deep.example.com/", ""},
		{Cookie{Name: "a", Value: "1", Domain: "example.com", Path: "/", HostOnly: true}, "http://example.com/", "a=1"},
		{Cookie{Name: "a", Value: "1", Domain: "example.com", Path: "/", Secure: true}, "http://example.com/", ""},
		{Cookie{Name: "a", Value: "1", Domain: "example.com", Path: "/", HttpOnly: true}, "ftp://example.com/", ""},
		{Cookie{Name: "a", Value: "1", Domain: "example.com", Path: "/foo"}, "http://example.com/foobar", ""},
		{Cookie{Name: "é", Value: "a=1", Domain: "[::1]", Path: "/foo", Expires: start.Add(time.Second), SameSite: http.SameSiteLaxMode},
			"http://[::1]/foo/bar", "é=a=1"},
	} {
		jar := newJar(t, nil)
		what := fmt.Sprintf("Insert(%+v)", row.cookie)
		if err := jar.Insert(row.cookie); err != nil {
			t.Errorf("%s: %v", what, err)
		}
		if got, want := jar.All(), []Cookie{row.cookie}; !reflect.DeepEqual(got, want) {
			t.Errorf("%s: All() = %+v", what, got)
		}
		expectHeader(t, jar, row.to, row.want)
	}
}

// TestInsertErrors changes one cookie. Zero is the status of one that is stored.
func TestInsertErrors(t *testing.T) {
	strict := &Options{Strict: true}
	for _, row := range []struct {
		options *Options
		change  func(*Cookie)
		want    Status
	}{
		{nil, func(c *Cookie) {}, 0},
		{nil, func(c *Cookie) { c.Path = "" }, 0},
		{nil, func(c *Cookie) { c.SameSite = http.SameSiteDefaultMode }, 0},
		{nil, func(c *Cookie) { c.Name = "a\x01" }, 0},
		{strict, func(c *Cookie) { c.Name, c.Secure, c.HostOnly = "__Host-a", true, true }, 0},
		{nil, func(c *Cookie) { c.Name = "" }, ErrParse},
		{nil, func(c *Cookie) { c.Name = "a;b" }, ErrParse},
		{nil, func(c *Cookie) { c.Value = " 1" }, ErrParse},
		{nil, func(c *Cookie) { c.Path = "foo" }, ErrParse},
		{nil, func(c *Cookie) { c.Domain = "" }, ErrDomainMismatch},
		{nil, func(c *Cookie) { c.Domain = ".example.com" }, ErrDomainMismatch},
		{nil, func(c *Cookie) { c.Domain = "Example.com" }, ErrDomainMismatch},
		{nil, func(c *Cookie) { c.Expires = start }, ErrExpired},
		{nil, func(c *Cookie) { c.Expires = time.Date(10000, 1, 1, 0, 0, 0, 0, time.UTC) }, ErrBadTime},
		{nil, func(c *Cookie) { c.Name = "\xff" }, ErrNotUTF8},
		{nil, func(c *Cookie) { c.SameSite = 5 }, ErrBadOption},
		{nil, func(c *Cookie) { c.SameSite = -1 }, ErrBadOption},
		{strict, func(c *Cookie) { c.Name = "a\x01" }, ErrControlCharacter},
		{strict, func(c *Cookie) { c.Value = strings.Repeat("x", 4096) }, ErrTooLong},
		{strict, func(c *Cookie) { c.SameSite = http.SameSiteNoneMode }, ErrInsecureSameSiteNone},
		{strict, func(c *Cookie) { c.Name, c.Secure = "__Host-a", true }, ErrPrefix},
	} {
		jar := newJar(t, row.options)
		cookie := Cookie{Name: "a", Value: "1", Domain: "example.com", Path: "/"}
		row.change(&cookie)
		err, what := jar.Insert(cookie), fmt.Sprintf("Insert(%+v)", cookie)
		if row.want == 0 && err != nil {
			t.Errorf("%s: %v", what, err)
		}
		if row.want != 0 {
			expectStatus(t, what, err, row.want)
			if n := jar.Len(); n != 0 {
				t.Errorf("%s: Len() = %d", what, n)
			}
		}
	}
}
