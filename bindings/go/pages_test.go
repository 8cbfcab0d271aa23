package cookiestore

import (
	"fmt"
	"net/url"
	"strings"
	"testing"
)

// The page of a request for https://a.co.example/d/page is same-site or not under a list, and without one.
func TestHeaderFor(t *testing.T) {
	const all = "none=1; unset=2; lax=3; strict=4"
	listed := &Options{PublicSuffixList: []byte("co.example\n")}
	for _, row := range []struct {
		options   *Options
		page      string
		crossSite CrossSite
		want      string
	}{
		{listed, "https://www.a.co.example/", CrossSite{}, all},
		{listed, "https://www.a.co.example/", CrossSite{TopLevel: true, NoneByDefault: true}, all},
		{listed, "wss://a.co.example:8443/", CrossSite{}, all},
		{listed, "http://a.co.example/", CrossSite{}, "none=1"},
		{listed, "https://b.co.example/", CrossSite{}, "none=1"},
		{listed, "https://b.co.example/", CrossSite{NoneByDefault: true}, "none=1; unset=2"},
		{listed, "https://b.co.example/", CrossSite{TopLevel: true}, "none=1; unset=2; lax=3"},
		{listed, "https://b.co.example/", CrossSite{TopLevel: true, NoneByDefault: true}, "none=1; unset=2; lax=3"},
		{nil, "https://a.co.example/", CrossSite{}, all},
		{nil, "https://www.a.co.example/", CrossSite{}, "none=1"},
	} {
		jar := newJar(t, row.options)
		parseAll(t, jar, "https://a.co.example/d/page", "none=1; SameSite=None; Path=/d", "unset=2; Path=/d",
			"lax=3; SameSite=Lax; Path=/", "strict=4; SameSite=Strict; Path=/")
		got, err := jar.HeaderFor(parseURL(t, "https://a.co.example/d/page"), parseURL(t, row.page), row.crossSite)
		if err != nil || got != row.want {
			t.Errorf("HeaderFor(%s, %+v) = %q, %v, want %q", row.page, row.crossSite, got, err, row.want)
		}
	}
}

func TestHeaderForIsLongAndPlain(t *testing.T) {
	jar := newJar(t, nil)
	page, long := parseURL(t, "http://example.com/"), "a="+strings.Repeat("x", 5000)
	parseAll(t, jar, "http://example.com/", long, "b=\x01")
	if got, err := jar.HeaderFor(page, page, CrossSite{}); err != nil || got != long {
		t.Errorf("HeaderFor() = %.40q, %v, want %.40q", got, err, long)
	}
}

func TestParseFor(t *testing.T) {
	const sameSite, crossSite = "https://www.a.co.example/", "https://b.co.example/"
	for _, row := range []struct {
		page, value string
		crossSite   CrossSite
		want        Status // 0: it is inserted
	}{
		{sameSite, "a=1; SameSite=Strict", CrossSite{}, 0},
		{sameSite, "a=1", CrossSite{}, 0},
		{sameSite, "__Host-a=1", CrossSite{}, ErrPrefix},
		{crossSite, "a=1; SameSite=Strict", CrossSite{}, ErrCrossSiteResponse},
		{crossSite, "a=1", CrossSite{}, ErrCrossSiteResponse},
		{crossSite, "a=1; SameSite=None; Secure", CrossSite{}, 0},
		{crossSite, "a=1; SameSite=None", CrossSite{}, ErrInsecureSameSiteNone},
		{crossSite, "a=1; SameSite=Strict", CrossSite{TopLevel: true}, 0},
		{crossSite, "a=1", CrossSite{NoneByDefault: true}, 0},
		{crossSite, "a=1; SameSite=Lax", CrossSite{NoneByDefault: true}, ErrCrossSiteResponse},
		{crossSite, "a=\x01", CrossSite{}, ErrControlCharacter},
		{crossSite, "a=\xff", CrossSite{}, ErrNotUTF8},
	} {
		jar := newJar(t, &Options{PublicSuffixList: []byte("co.example\n")})
		err := jar.ParseFor(parseURL(t, "https://a.co.example/"), parseURL(t, row.page), row.value, row.crossSite)
		name := fmt.Sprintf("ParseFor(%s, %q, %+v)", row.page, row.value, row.crossSite)
		if row.want == 0 && (err != nil || jar.Len() != 1) {
			t.Errorf("%s: %v, %d cookies", name, err, jar.Len())
		} else if row.want != 0 {
			expectStatus(t, name, err, row.want)
		}
	}
}

func TestBadPages(t *testing.T) {
	jar, ok := newJar(t, nil), parseURL(t, "http://example.com/")
	for _, row := range []struct{ u, page *url.URL }{
		{ok, nil},
		{nil, ok},
		{ok, parseURL(t, "about:blank")},
		{ok, &url.URL{Scheme: "http", Host: "a\\@b"}},
	} {
		_, err := jar.HeaderFor(row.u, row.page, CrossSite{})
		expectStatus(t, fmt.Sprintf("HeaderFor(%v, %v)", row.u, row.page), err, ErrBadURL)
		err = jar.ParseFor(row.u, row.page, "a=1", CrossSite{})
		expectStatus(t, fmt.Sprintf("ParseFor(%v, %v)", row.u, row.page), err, ErrBadURL)
	}
	jar.Close()
	_, err := jar.HeaderFor(ok, ok, CrossSite{})
	expectStatus(t, "HeaderFor", err, ErrClosed)
	expectStatus(t, "ParseFor", jar.ParseFor(ok, ok, "a=1", CrossSite{}), ErrClosed)
}
