package sites_test

import (
	"context"
	"errors"
	"fmt"
	"math/rand"
	"net/http"
	"net/url"
	"sort"
	"strings"
	"testing"
	"time"

	"pulleymaroon/cookiestore"
	"pulleymaroon/cookiestore/sites"
)

var (
	ctx      = context.Background()
	suffixes = []byte("com\nco.uk\njp\n*.kobe.jp\n!city.kobe.jp\nexample\ns3.cloud.example\ninvalid\n")
)

func newJar(t *testing.T, values sites.Values, options sites.Options) *sites.Jar {
	options.PublicSuffixList = suffixes
	jar := must(sites.New(values, &options))
	t.Cleanup(func() { jar.Close() })
	return jar
}

// oneStore returns the jar that a jar over values must do the same as.
func oneStore(t *testing.T, limit int) *cookiestore.Jar {
	jar := must(cookiestore.New(&cookiestore.Options{PublicSuffixList: suffixes, DomainLimit: limit, Strict: true}))
	t.Cleanup(func() { jar.Close() })
	return jar
}

func must[T any](value T, err error) T {
	if err != nil {
		panic(err)
	}
	return value
}

func parseURL(text string) *url.URL { return must(url.Parse(text)) }

// expect compares what is printed of two values: errors are not identical.
func expect(t *testing.T, what string, got, want any) {
	t.Helper()
	if got, want := fmt.Sprint(got), fmt.Sprint(want); got != want {
		t.Errorf("%s: %s, want %s", what, got, want)
	}
}

func pick[T any](r *rand.Rand, from ...T) T { return from[r.Intn(len(from))] }

// Hosts with sites that nest, and hosts without a site. None is a public suffix that is its own root and has hosts below: there a
// Secure cookie of one store would count for these.
var hosts = strings.Fields(`a.example b.a.example c.b.a.example www.x.co.uk x.co.uk kobe.jp a.b.kobe.jp b.kobe.jp city.kobe.jp
	www.city.kobe.jp cloud.example s3.cloud.example a.s3.cloud.example localhost 127.0.0.1 [::1] a.example.`)

func randomURL(r *rand.Rand) *url.URL {
	return parseURL(pick(r, "http", "https") + "://" + pick(r, hosts...) + pick(r, "/", "/", "/d", "/d/e", "/other"))
}

func randomValue(r *rand.Rand, number int) string {
	value := fmt.Sprintf("%s=%d", pick(r, "a", "b", "c", "d", "__Host-a", "__Secure-b", "__Http-c"), number)
	for n := pick(r, 0, 0, 1, 2, 3); n > 0; n-- {
		value += "; " + pick(r, "Secure", "HttpOnly", "SameSite=Lax", "SameSite=None", "Path=/", "Path=/d", "Path=d", "Max-Age=0",
			"Max-Age=300", "Expires=Thu, 01 Jan 1970 00:00:01 GMT", "Max-Age=99999999", "\x01")
	}
	if r.Intn(2) == 0 {
		value += "; Domain=" + pick(r, append(hosts, "", ".a.example", "co.uk", "example", "other.example", "\u00fc.example")...)
	}
	return value
}

func randomCookie(r *rand.Rand, number int) cookiestore.Cookie {
	return cookiestore.Cookie{
		Domain: pick(r, append(hosts, "A.example", "")...), Path: pick(r, "", "/d", "d"), Name: pick(r, "a", "b", "__Host-a"),
		Value: pick(r, fmt.Sprint(number), "a;b"), Expires: pick(r, time.Time{}, time.Unix(1, 0), time.Now().Add(time.Hour)),
		HostOnly: r.Intn(2) == 0, Secure: r.Intn(2) == 0, SameSite: pick(r, 0, http.SameSiteLaxMode, 9),
	}
}

// listOf returns the cookies without their expiry, which depends on the clock.
func listOf(jars ...*cookiestore.Jar) (list []string) {
	for _, jar := range jars {
		for _, cookie := range jar.All() {
			cookie.Expires = time.Time{}
			list = append(list, fmt.Sprintf("%+v", cookie))
		}
	}
	sort.Strings(list)
	return list
}

// sitesOf returns the cookies of each root.
func sitesOf(t *testing.T, jar *sites.Jar) (found []*cookiestore.Jar) {
	for _, root := range must(jar.Roots(ctx)) {
		site := must(jar.Site(ctx, root))
		t.Cleanup(func() { site.Close() })
		found = append(found, site)
	}
	return found
}

// Each call returns what one store returns, from which expired cookies are removed before it.
func TestSameAsOneStore(t *testing.T) {
	for seed := 0; seed < 8; seed++ {
		r, limit := rand.New(rand.NewSource(int64(seed))), seed%2*2
		jar, one := newJar(t, new(sites.MemoryValues), sites.Options{DomainLimit: limit}), oneStore(t, limit)
		for i := 0; i < 400; i++ {
			u, page, cookie := randomURL(r), randomURL(r), randomCookie(r, i)
			values := []string{randomValue(r, i), randomValue(r, 1000+i), randomValue(r, 2000+i)}[:1+r.Intn(3)]
			what := fmt.Sprintf("seed %d, call %d: %v %q %v %+v", seed, i, u, values, page, cookie)
			crossSite := cookiestore.CrossSite{TopLevel: r.Intn(2) == 0, NoneByDefault: r.Intn(4) == 0}
			one.RemoveExpired()
			if r.Intn(2) == 0 {
				errs := make([]error, len(values))
				for k, value := range values {
					errs[k] = one.Parse(u, value)
				}
				expect(t, "Receive, "+what, must(jar.Receive(ctx, u, values)), errs)
			} else {
				got, want := jar.ParseFor(ctx, u, page, values[0], crossSite), one.ParseFor(u, page, values[0], crossSite)
				expect(t, "ParseFor, "+what, got, want)
			}
			one.RemoveExpired()
			expect(t, "Insert, "+what, jar.Insert(ctx, cookie), one.Insert(cookie))
			one.RemoveExpired()
			if stored := append(one.All(), cookie); i%10 == 0 {
				c := pick(r, stored...)
				expect(t, "Remove, "+what, jar.Remove(ctx, c.Domain, c.Path, c.Name), one.Remove(c.Domain, c.Path, c.Name))
			}
			u = randomURL(r)
			header, err := jar.Header(ctx, u)
			want, wantErr := one.Header(u)
			expect(t, "Header, "+what, []any{header, err}, []any{want, wantErr})
			header, err = jar.HeaderFor(ctx, u, page, crossSite)
			want, wantErr = one.HeaderFor(u, page, crossSite)
			expect(t, "HeaderFor, "+what, []any{header, err}, []any{want, wantErr})
		}
		one.RemoveExpired()
		expect(t, "cookies", listOf(sitesOf(t, jar)...), listOf(one))
	}
}

// listAs is a list of one cookie.
func listAs(cookie, expires string) []byte {
	return []byte(fmt.Sprintf(`[{"raw_cookie":%q,"path":["/",true],"domain":{"HostOnly":"a.example"},"expires":%s}]`, cookie, expires))
}

func TestBadLists(t *testing.T) {
	u := parseURL("https://a.example/")
	for value, want := range map[string]cookiestore.Status{
		"":                                       cookiestore.ErrBadJSON,
		"\xff":                                   cookiestore.ErrNotUTF8,
		`["secret"]`:                             cookiestore.ErrBadShape,
		string(listAs("secret", `"SessionEnd"`)): cookiestore.ErrParse,
		string(listAs("a=1", `{"AtUtc":"soon"}`)): cookiestore.ErrBadExpiry,
	} {
		values := new(sites.MemoryValues)
		jar := newJar(t, values, sites.Options{})
		values.Swap(ctx, "a.example", nil, []byte(value))
		_, headerErr := jar.Header(ctx, u)
		_, expiredErr := jar.RemoveExpired(ctx)
		for _, err := range []error{headerErr, expiredErr, jar.Parse(ctx, u, "a=1"), jar.Remove(ctx, "a.example", "/", "a")} {
			var bad *sites.BadListError
			if !errors.As(err, &bad) || *bad != (sites.BadListError{Root: "a.example", Status: want}) || errors.Is(err, want) {
				t.Errorf("%q: %v, want %v", value, err, want)
			}
			expect(t, "message", err, fmt.Sprintf(`sites: the cookies of "a.example": %s`, want.String()))
		}
		expect(t, "removal", []any{jar.RemoveRoot(ctx, "a.example"), jar.RemoveRoot(ctx, "a.example")}, []any{nil, nil})
		expect(t, "Parse", jar.Parse(ctx, u, "a=1"), nil)
		expect(t, "Clear", []any{jar.Clear(ctx), len(sitesOf(t, jar))}, []any{nil, 0})
	}
}

func TestExpired(t *testing.T) {
	values, past := new(sites.MemoryValues), listAs("a=1", `{"AtUtc":"2020-01-01T00:00:00Z"}`)
	jar := newJar(t, values, sites.Options{})
	values.Swap(ctx, "a.example", nil, past)
	expect(t, "Remove", jar.Remove(ctx, "a.example", "/", "a"), cookiestore.ErrNotFound)
	for _, want := range []int{1, 0} {
		removed, err := jar.RemoveExpired(ctx)
		expect(t, "RemoveExpired", []any{removed, err}, []any{want, nil})
	}
	expect(t, "cookies", len(sitesOf(t, jar)), 0)
}

// faulty are values of which others write before each of the next writes, or that return an error.
type faulty struct {
	sites.MemoryValues
	conflicts int
	err       error
}

func (f *faulty) Swap(ctx context.Context, key string, old, new []byte) (bool, error) {
	if f.conflicts > 0 {
		f.conflicts--
		value, _ := f.Get(ctx, key)
		f.MemoryValues.Swap(ctx, key, value, listAs(fmt.Sprint("x=", f.conflicts), `"SessionEnd"`))
	}
	if f.err != nil {
		return false, f.err
	}
	return f.MemoryValues.Swap(ctx, key, old, new)
}

func TestConflicts(t *testing.T) {
	u := parseURL("https://a.example/")
	for conflicts, want := range map[int]string{
		0: "<nil> a=1", 2: "<nil> x=0; a=1", 3: `sites: the cookies of "a.example": others wrote them at each of 3 attempts x=0`,
	} {
		jar := newJar(t, &faulty{conflicts: conflicts}, sites.Options{Attempts: 3})
		err := jar.Parse(ctx, u, "a=1")
		header, _ := jar.Header(ctx, u)
		expect(t, "Parse and Header", fmt.Sprint(err, " ", header), want)
		if conflict := (*sites.ConflictError)(nil); errors.As(err, &conflict) != (conflicts == 3) {
			t.Errorf("%d conflicts: %v", conflicts, err)
		}
	}
}

func TestFaults(t *testing.T) {
	u, failure, values := parseURL("https://a.example/"), errors.New("it failed"), new(faulty)
	jar := newJar(t, values, sites.Options{})
	canceled, cancel := context.WithCancel(ctx)
	cancel()
	values.MemoryValues.Swap(ctx, "a.example", nil, []byte("[]"))
	values.err = failure
	_, headerErr := jar.Header(canceled, u)
	expect(t, "errors of a context", []any{jar.Parse(canceled, u, "a=1"), headerErr}, []any{context.Canceled, context.Canceled})
	expect(t, "errors of values", []any{jar.Parse(ctx, u, "a=1"), jar.Clear(ctx)}, []any{failure, failure})
	expect(t, "errors before them", []any{
		jar.Parse(ctx, parseURL("http:///"), "a=1"), jar.Parse(ctx, u, "a=1; Domain=example"), jar.Remove(ctx, "\xff", "/", "a"),
	}, []any{cookiestore.ErrBadURL, cookiestore.ErrPublicSuffix, cookiestore.ErrNotUTF8})
	jar.Close()
	expect(t, "errors of a closed jar", []any{jar.Parse(ctx, u, "a=1"), jar.Insert(ctx, cookiestore.Cookie{})},
		[]any{cookiestore.ErrClosed, cookiestore.ErrClosed})
}

func TestCookieJar(t *testing.T) {
	var dropped []string
	jar := newJar(t, new(sites.MemoryValues), sites.Options{OnDropped: func(host, name string, err error) {
		dropped = append(dropped, fmt.Sprint(host, " ", name, " ", errors.Unwrap(err) == nil, " ", err))
	}})
	u := parseURL("https://www.a.example:8080/")
	// net/http cannot read the date.
	response := http.Response{Header: http.Header{"Set-Cookie": {"a=1; Expires=Thu Dec 31 23:59:59 2099", "b=2; Domain=example"}}}
	jar.SetCookies(u, append(response.Cookies(), &http.Cookie{Name: "c", Value: "3", Domain: "a.example"}))
	expect(t, "cookies", jar.Cookies(u), "[a=1 c=3]")
	persistent := map[string]bool{}
	for _, cookie := range sitesOf(t, jar)[0].All() {
		persistent[cookie.Name] = !cookie.Expires.IsZero()
	}
	expect(t, "persistent cookies", persistent, "map[a:true c:false]")
	canceled, cancel := context.WithCancel(ctx)
	cancel()
	jar.WithContext(canceled).SetCookies(u, []*http.Cookie{{Name: "d", Value: "4"}})
	jar.WithContext(canceled).Cookies(u)
	jar.Cookies(nil)
	expect(t, "dropped cookies", strings.Join(dropped, "\n"), `www.a.example:8080 b false cookiestore: the domain is a public suffix
www.a.example:8080 d true context canceled
www.a.example:8080  true context canceled
  false cookiestore: `+cookiestore.ErrBadURL.String())
}
