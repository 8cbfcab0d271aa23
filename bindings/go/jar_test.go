package cookiestore

import (
	"crypto/rand"
	"errors"
	"fmt"
	"io"
	"net/http"
	"net/url"
	"os"
	"reflect"
	"strings"
	"sync"
	"testing"
	"time"
)

var start = time.Date(2026, 1, 1, 0, 0, 0, 0, time.UTC)

// newJar returns a jar whose clock is at start, and which is closed after the test.
func newJar(t *testing.T, options *Options) *Jar {
	t.Helper()
	jar, err := New(options)
	if err != nil {
		t.Fatalf("New: %v", err)
	}
	t.Cleanup(func() { jar.Close() })
	setClock(jar, start)
	return jar
}

func setClock(jar *Jar, now time.Time) { jar.now = func() time.Time { return now } }

func parseURL(t *testing.T, text string) *url.URL {
	t.Helper()
	u, err := url.Parse(text)
	if err != nil {
		t.Fatal(err)
	}
	return u
}

// parseAll inserts cookies that must not be rejected.
func parseAll(t *testing.T, jar *Jar, from string, values ...string) {
	t.Helper()
	for _, value := range values {
		if err := jar.Parse(parseURL(t, from), value); err != nil {
			t.Fatalf("%s: Parse(%q): %v", from, value, err)
		}
	}
}

func expectHeader(t *testing.T, jar *Jar, to, want string) {
	t.Helper()
	got, err := jar.Header(parseURL(t, to))
	if err != nil || got != want {
		t.Errorf("Header(%s) = %q, %v, want %q", to, got, err, want)
	}
}

func expectStatus(t *testing.T, what string, err error, want Status) {
	t.Helper()
	var typed *Error
	if !errors.Is(err, want) || !errors.As(err, &typed) || typed.Status != want {
		t.Errorf("%s: %v, want %v", what, err, want)
	}
}

func TestHeader(t *testing.T) {
	long := "a=" + strings.Repeat("x", 5000)
	for _, row := range []struct{ from, value, to, want string }{
		{"http://example.com/", "a=1", "http://example.com/", "a=1"},
		{"http://example.com/", "a=1", "http://deep.example.com/", ""},
		{"http://example.com/", "a=1; Domain=example.com", "http://deep.example.com/", "a=1"},
		{"http://deep.example.com/", "a=1; Domain=.example.com", "http://example.com/", "a=1"},
		{"http://example.com/foo/bar", "a=1", "http://example.com/foo/x?q=1#f", "a=1"},
		{"http://example.com/foo/bar", "a=1", "http://example.com/foobar", ""},
		{"http://example.com/", "a=1; Path=/a b", "http://example.com/a%20b", ""},
		{"https://example.com/", "a=1; Secure", "https://example.com:8443", "a=1"},
		{"https://example.com/", "a=1; Secure", "http://example.com/", ""},
		{"http://[::1]:80/", "a=1", "http://[::1]/", "a=1"},
		{"http://example.com/", "a=", "http://example.com/", "a="},
		{"http://example.com/", `a="q r, é"`, "http://example.com/", `a="q r, é"`},
		{"http://example.com/", long, "http://example.com/", long},
	} {
		jar := newJar(t, nil)
		parseAll(t, jar, row.from, row.value)
		expectHeader(t, jar, row.to, row.want)
	}
}

func TestParseErrors(t *testing.T) {
	list, strict := &Options{PublicSuffixList: []byte("uk\nco.uk\n")}, &Options{Strict: true}
	full := &Options{Strict: true, DomainLimit: 1}
	sites := &Options{Strict: true, PublicSuffixList: []byte("com\ns3.example.com\n")}
	for _, row := range []struct {
		options     *Options
		from, value string
		want        Status
	}{
		{nil, "http://example.com/", "", ErrParse},
		{nil, "http://example.com/", "a", ErrParse},
		{nil, "http://example.com/", "a=1; Domain=other.com", ErrDomainMismatch},
		{nil, "http://example.com/", "a=1; Domain=deep.example.com", ErrDomainMismatch},
		{nil, "http://example.com/", "a=1; Max-Age=0", ErrExpired},
		{nil, "ftp://example.com/", "a=1; HttpOnly", ErrNonHTTPScheme},
		{list, "http://shop.co.uk/", "a=1; Domain=co.uk", ErrPublicSuffix},
		{strict, "http://example.com/", "a=\x01", ErrControlCharacter},
		{strict, "http://example.com/", "a=" + strings.Repeat("x", 4096), ErrTooLong},
		{strict, "http://example.com/", "a=1; Secure", ErrInsecureURL},
		{strict, "https://example.com/", "a=1; SameSite=None", ErrInsecureSameSiteNone},
		{strict, "https://example.com/", "__Host-a=1; Path=/", ErrPrefix},
		{strict, "https://example.com/", "__Http-a=1; Secure", ErrPrefix},
		{strict, "https://example.com/", "__Host-Http-a=1; Secure; HttpOnly", ErrPrefix},
		{strict, "https://example.com/", "a=1; Domain=example.com\u00a0", ErrDomainMismatch},
		{strict, "https://example.com/", "a=1; Domain=. example.com", ErrDomainMismatch},
		{strict, "https://example.com/", "a=1; Domain=example.com; Domain=other.com", ErrDomainMismatch},
		{strict, "http://example.com/", "stored=2", ErrSecureStored},
		{full, "https://example.com/", "a=1", ErrSecureLimit},
		{sites, "https://shop.s3.example.com/", "a=1; Domain=example.com", ErrPublicSuffix},
		{nil, "http:///", "a=1", ErrBadURL},
		{nil, "http:example.com", "a=1", ErrBadURL},
		{nil, "", "a=1", ErrBadURL},
		{nil, "http://example.com/", "a=\xff", ErrNotUTF8},
	} {
		jar := newJar(t, row.options)
		parseAll(t, jar, "https://example.com/", "stored=1; Secure")
		err := jar.Parse(parseURL(t, row.from), row.value)
		name := fmt.Sprintf("%s: Parse(%.40q)", row.from, row.value)
		expectStatus(t, name, err, row.want)
		if failed := row.want == ErrBadURL || row.want == ErrNotUTF8; row.want.IsRejection() == failed {
			t.Errorf("%s: IsRejection is %v", name, !failed)
		}
		if jar.Len() != 1 {
			t.Errorf("%s: %d cookies, want the one stored before", name, jar.Len())
		}
	}
}

// A strict jar reads header values as browsers do.
func TestStrictHeader(t *testing.T) {
	for _, row := range []struct{ from, value, plain, strict string }{
		{"http://example.com/", "a=1\u00a0", "a=1", "a=1\u00a0"},
		{"http://example.com/", "\u3000a=1", "a=1", "\u3000a=1"},
		{"http://example.com/", "a=1; Max-Age=60; Max-Age=-", "", "a=1"},
		{"http://example.com/x", "a=1; Path=/x\u00a0", "a=1", ""},
		{"http://a.localhost/", "a=1; Secure", "", "a=1"},
		{"http://localhost./", "a=1; Secure", "", "a=1"},
		{"https://example.com/", "__Http-a=1; Secure; HttpOnly", "__Http-a=1", "__Http-a=1"},
		{"https://example.com/", "__Host-Http-a=1; Secure; HttpOnly; Path=/", "__Host-Http-a=1", "__Host-Http-a=1"},
	} {
		for _, strict := range []bool{false, true} {
			jar, want := newJar(t, &Options{Strict: strict}), row.plain
			if strict {
				want = row.strict
			}
			if err := jar.Parse(parseURL(t, row.from), row.value); err != nil && !errors.Is(err, ErrExpired) {
				t.Errorf("strict %v: Parse(%q): %v", strict, row.value, err)
			}
			expectHeader(t, jar, row.from, want)
		}
	}
}

// A request goes to u.Host, whatever the other fields name.
func TestHostDecides(t *testing.T) {
	jar := newJar(t, nil)
	parseAll(t, jar, "http://example.com/", "a=1")
	for _, row := range []struct {
		u    *url.URL
		want string
	}{
		{nil, ""},
		{&url.URL{Scheme: "http", Path: "/example.com/"}, ""},
		{&url.URL{Scheme: "http", Host: "other.com", Opaque: "//example.com/"}, ""},
		{&url.URL{Scheme: "http", Host: "other.com", Path: "//example.com/"}, ""},
		{&url.URL{Scheme: "http", Host: `other.com\@example.com`, Path: "/"}, ""},
		{&url.URL{Scheme: "http", Host: `example.com\@other.com`, Path: "/"}, ""},
		{&url.URL{Scheme: "http", Host: "example.com/@other.com", Path: "/"}, ""},
		{&url.URL{Scheme: "http", Host: "example.com#@other.com", Path: "/"}, ""},
		{&url.URL{Scheme: "http", Host: "example.com \u00fc", Path: "/"}, ""},
		{&url.URL{Scheme: "http", Host: "example.com/\u00fc", Path: "/"}, ""},
		{&url.URL{Scheme: "http", Host: "example.com\r\nX:\u00fc", Path: "/"}, ""},
		{&url.URL{Scheme: "http", Host: "\u00fc\nHost:example.com", Path: "/"}, ""},
		{&url.URL{Scheme: "http://example.com/?", Host: "other.com", Path: "/"}, ""},
		{&url.URL{Scheme: "http", Host: "example.com", Path: "/", User: url.UserPassword("other.com", "@")}, "a=1"},
		{&url.URL{Scheme: "http", Host: "example.com", Opaque: "/a"}, "a=1"},
		{&url.URL{Scheme: "http", Host: "example.com", Opaque: "//example.com/a"}, "a=1"},
		{&url.URL{Scheme: "http", Host: "example.com", Opaque: "//other.com/a"}, ""}, // a proxy connects to other.com
		{&url.URL{Scheme: "http", Host: "example.com", Opaque: "//example.com@other.com/a"}, ""},
		{&url.URL{Scheme: "http", Host: "example.com", Opaque: "http://other.com/a"}, ""},
	} {
		if got, _ := jar.Header(row.u); got != row.want {
			t.Errorf("Header(%#v) = %q, want %q", row.u, got, row.want)
		}
	}
}

func TestOptionErrors(t *testing.T) {
	for _, row := range []struct {
		options Options
		want    Error
		text    string
	}{
		{Options{PublicSuffixList: []byte("uk\nco..uk\n")}, Error{ErrBadRule, 2},
			"cookiestore: a line of the list is not a rule (line 2)"},
		{Options{PublicSuffixList: []byte("\xff")}, Error{ErrNotUTF8, 0}, "cookiestore: not UTF-8"},
		{Options{PublicSuffixList: []byte{}}, Error{ErrNoRules, 0}, "cookiestore: the public suffix list has no rules"},
		{Options{PublicSuffixList: []byte("// a comment\n\n"), OnlyListed: true}, Error{ErrNoRules, 0},
			"cookiestore: the public suffix list has no rules"},
		{Options{PublicSuffixList: []byte(publicSuffixFile)}, Error{ErrBadRule, 1},
			"cookiestore: a line of the list is not a rule (line 1)"},
		{Options{PublicSuffixList: []byte("\n<!DOCTYPE html>\n<html>\n")}, Error{ErrBadRule, 2},
			"cookiestore: a line of the list is not a rule (line 2)"},
		{Options{PublicSuffixList: []byte(`{"error": 1}`), OnlyListed: true}, Error{ErrBadRule, 1},
			"cookiestore: a line of the list is not a rule (line 1)"},
		{Options{DomainLimit: -1}, Error{ErrBadLimit, 0}, "cookiestore: negative domain limit or number of shards"},
	} {
		_, err := New(&row.options)
		var typed *Error
		if !errors.As(err, &typed) || *typed != row.want || err.Error() != row.text {
			t.Errorf("New(%+v): %v, want %v", row.options, err, row.text)
		}
	}
	if text := Status(99).Error(); text != "cookiestore: unknown status" {
		t.Errorf("an unknown status is %q", text)
	}
	for status, want := range map[Status]bool{9: false, 19: true, ErrNoRules: false, ErrNoList: false, 39: false, ErrCrossSiteResponse: true, 48: true, 99: true, 100: false} {
		if got := status.IsRejection(); got != want {
			t.Errorf("status %d: IsRejection is %v", int(status), got)
		}
	}
}

// The hash key is of the random bytes of the system.
func TestHashKey(t *testing.T) {
	system, read := rand.Reader, new(strings.Builder)
	defer func() { rand.Reader = system }()
	rand.Reader = io.TeeReader(system, read)
	newJar(t, nil)
	if read.Len() != 16 {
		t.Errorf("%d random bytes were read, want 16", read.Len())
	}
}

func TestOptions(t *testing.T) {
	jar := newJar(t, &Options{PublicSuffixList: []byte("uk\nco.uk\n"), DomainLimit: 2})
	parseAll(t, jar, "http://co.uk/", "own=1; Domain=co.uk")
	expectHeader(t, jar, "http://co.uk/", "own=1")
	expectHeader(t, jar, "http://shop.co.uk/", "")
	parseAll(t, jar, "http://shop.co.uk/", "a=1", "b=2; Domain=shop.co.uk", "c=3")
	expectHeader(t, jar, "http://shop.co.uk/", "b=2; c=3")

	jar = newJar(t, &Options{Strict: true})
	parseAll(t, jar, "https://example.com/", "a=1; Max-Age=99999999")
	if got, want := jar.All()[0].Expires, start.AddDate(0, 0, 400); !got.Equal(want) {
		t.Errorf("a strict jar's cookie expires at %v, want %v", got, want)
	}
}

func TestPublicSuffixLists(t *testing.T) {
	for name, row := range map[string]struct {
		options Options
		want    []string // the domains of which all hosts below may get a cookie
	}{
		"no list":                {Options{}, []string{"shop.co.uk", "co.uk", "shop.np", "np"}},
		"no list, only listed":   {Options{OnlyListed: true}, []string{"shop.co.uk", "co.uk", "shop.np", "np"}},
		"a list":                 {Options{PublicSuffixList: []byte("uk\nco.uk\n")}, []string{"shop.co.uk", "shop.np"}},
		"a list, only listed":    {Options{PublicSuffixList: []byte("uk\nco.uk\n"), OnlyListed: true}, []string{"shop.co.uk", "shop.np", "np"}},
		"only the rule * itself": {Options{PublicSuffixList: []byte("*"), OnlyListed: true}, []string{"shop.co.uk", "co.uk", "shop.np"}},
	} {
		jar := newJar(t, &row.options)
		var got []string
		for _, domain := range []string{"shop.co.uk", "co.uk", "shop.np", "np"} {
			err := jar.Parse(parseURL(t, "http://deep."+domain+"/"), "a=1; Domain="+domain)
			if err == nil {
				got = append(got, domain)
			} else {
				expectStatus(t, name+": "+domain, err, ErrPublicSuffix)
			}
		}
		if !reflect.DeepEqual(got, row.want) {
			t.Errorf("%s: cookies for all of %q, want %q", name, got, row.want)
		}
	}
}

func TestSystemPublicSuffixList(t *testing.T) {
	list, err := SystemPublicSuffixList()
	if errors.Is(err, os.ErrNotExist) {
		t.Skip(err)
	}
	if err != nil {
		t.Fatal(err)
	}
	jar := newJar(t, &Options{PublicSuffixList: list})
	parseAll(t, jar, "http://www.shop.co.uk/", "a=1; Domain=shop.co.uk")
	for from, value := range map[string]string{"http://shop.co.uk/": "a=1; Domain=co.uk", "http://shop.np/": "a=1; Domain=np"} {
		expectStatus(t, value, jar.Parse(parseURL(t, from), value), ErrPublicSuffix)
	}
}

func TestCookies(t *testing.T) {
	jar := newJar(t, nil)
	parseAll(t, jar, "https://example.com/foo/bar",
		"a=1; Max-Age=60; Secure", "b=2; Domain=example.com; Path=/; HttpOnly; SameSite=Lax", "c=; Max-Age=61")
	want := []Cookie{
		{"example.com", "/foo", "a", "1", start.Add(time.Minute), true, true, false, 0},
		{"example.com", "/foo", "c", "", start.Add(61 * time.Second), true, false, false, 0},
		{"example.com", "/", "b", "2", time.Time{}, false, false, true, http.SameSiteLaxMode},
	}
	expectAll(t, "after Parse", jar, want)
	if jar.Len() != 3 {
		t.Errorf("Len() = %d, want 3", jar.Len())
	}

	setClock(jar, start.Add(time.Minute))
	expectHeader(t, jar, "https://example.com/foo/", "c=; b=2")
	if count, err := jar.RemoveExpired(); count != 1 || err != nil {
		t.Errorf("RemoveExpired() = %d, %v, want 1", count, err)
	}
	expectAll(t, "after RemoveExpired", jar, want[1:])

	expectStatus(t, "Remove", jar.Remove("example.com", "/", "a"), ErrNotFound)
	if err := jar.Remove("example.com", "/", "b"); err != nil {
		t.Errorf("Remove: %v", err)
	}
	expectAll(t, "after Remove", jar, want[1:2])
	if count, err := jar.RemoveDomain("com"); count != 0 || err != nil {
		t.Errorf("RemoveDomain() = %d, %v, want 0", count, err)
	}
	parseAll(t, jar, "http://example.com/foo/", "c=; Max-Age=0") // expires the stored one
	expectHeader(t, jar, "http://example.com/foo/", "")
	if count, err := jar.RemoveDomain("example.com"); count != 1 || err != nil {
		t.Errorf("RemoveDomain() = %d, %v, want 1", count, err)
	}
	if err := jar.Clear(); err != nil || jar.Len() != 0 || jar.All() != nil {
		t.Errorf("Clear: %v, and %d cookies", err, jar.Len())
	}
}

func TestSameSite(t *testing.T) {
	for value, want := range map[string]http.SameSite{
		"a=1":                  0,
		"a=1; SameSite=Strict": http.SameSiteStrictMode,
		"a=1; samesite=LAX":    http.SameSiteLaxMode,
		"a=1; SameSite=None":   http.SameSiteNoneMode,
		"a=1; SameSite=other":  0,
	} {
		jar := newJar(t, nil)
		parseAll(t, jar, "https://example.com/", value)
		if got := jar.All()[0].SameSite; got != want {
			t.Errorf("%s: SameSite is %d, want %d", value, got, want)
		}
	}
}

func expectAll(t *testing.T, when string, jar *Jar, want []Cookie) {
	t.Helper()
	got := map[Cookie]bool{} // the order of the store is no promise
	for _, cookie := range jar.All() {
		got[cookie] = true
	}
	expected := map[Cookie]bool{}
	for _, cookie := range want {
		expected[cookie] = true
	}
	if !reflect.DeepEqual(got, expected) {
		t.Errorf("%s: All() = %+v, want %+v", when, got, expected)
	}
}

func TestMerge(t *testing.T) {
	jar, other := newJar(t, &Options{Strict: true}), newJar(t, nil)
	parseAll(t, jar, "https://example.com/foo/", "a=1", "c=2")
	parseAll(t, other, "http://example.com/foo/", "a=3", "__Secure-b=4", "d=5; Domain=com")
	for _, one := range []struct {
		from    *Jar
		leftOut int
	}{{other, 1}, {jar, 0}} {
		if leftOut, err := jar.Merge(one.from); leftOut != one.leftOut || err != nil {
			t.Errorf("Merge() = %d, %v, want %d", leftOut, err, one.leftOut)
		}
		expectHeader(t, jar, "http://example.com/foo/", "a=3; c=2; d=5")
	}
	expectHeader(t, other, "http://example.com/foo/", "a=3; __Secure-b=4; d=5")
	if err := other.Close(); err != nil {
		t.Errorf("Close: %v", err)
	}
	_, err := jar.Merge(other)
	expectStatus(t, "Merge of a closed jar", err, ErrClosed)
}

func TestClosed(t *testing.T) {
	closed, u := newJar(t, nil), parseURL(t, "http://example.com/")
	parseAll(t, closed, u.String(), "a=1")
	for _, jar := range []*Jar{closed, new(Jar)} {
		for i := 0; i < 2; i++ {
			if err := jar.Close(); err != nil {
				t.Errorf("Close: %v", err)
			}
		}
		_, headerErr := jar.Header(u)
		_, expiredErr := jar.RemoveExpired()
		_, domainErr := jar.RemoveDomain("")
		_, mergeErr := jar.Merge(newJar(t, nil))
		for name, err := range map[string]error{
			"Parse": jar.Parse(u, "a=1"), "Insert": jar.Insert(Cookie{}), "Header": headerErr, "Clear": jar.Clear(), "Remove": jar.Remove("", "", ""),
			"RemoveExpired": expiredErr, "RemoveDomain": domainErr, "Merge": mergeErr, "Save": jar.Save(new(strings.Builder), JSON, AllCookies),
		} {
			expectStatus(t, name, err, ErrClosed)
		}
		jar.SetCookies(u, []*http.Cookie{{Name: "a", Value: "1"}})
		if jar.Len() != 0 || jar.All() != nil || jar.Cookies(u) != nil {
			t.Error("a closed jar has cookies")
		}
	}
}

func TestGoroutines(t *testing.T) {
	const goroutines, each = 8, 200
	jar := newJar(t, nil)
	var all sync.WaitGroup
	for g := 0; g < goroutines; g++ {
		all.Add(1)
		go func(page *url.URL) {
			defer all.Done()
			for i := 0; i < each; i++ {
				if err := jar.Parse(page, fmt.Sprintf("c%d=%d", i, i)); err != nil {
					t.Error(err)
				}
				if got := len(jar.Cookies(page)); got != i+1 {
					t.Errorf("%v has %d cookies, want %d", page, got, i+1)
				}
			}
		}(parseURL(t, fmt.Sprintf("http://host%d.com/", g)))
	}
	all.Wait()
	if jar.Len() != goroutines*each {
		t.Errorf("%d cookies, want %d", jar.Len(), goroutines*each)
	}
}
