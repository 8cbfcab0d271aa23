package cookiestore

import (
	"fmt"
	"net/http"
	"net/http/cookiejar"
	"net/url"
	"runtime"
	"strings"
	"sync/atomic"
	"testing"
)

// responseCookies returns the cookies of a response with these header values.
func responseCookies(values ...string) []*http.Cookie {
	return (&http.Response{Header: http.Header{"Set-Cookie": values}}).Cookies()
}

// benchmarkCalls has one goroutine call two jars of 50 hosts, one with 20 cookies each and one with a cookie each.
func benchmarkCalls(b *testing.B, create func() (http.CookieJar, error)) {
	const hosts, each = 50, 20
	many, err := create()
	if err != nil {
		b.Fatal(err)
	}
	one, err := create()
	if err != nil {
		b.Fatal(err)
	}
	var values [each]string
	for i := range values {
		values[i] = fmt.Sprintf("c%d=value%d; Path=/; Max-Age=86400", i, i)
	}
	cookies := responseCookies(values[:]...)
	var urls [hosts]*url.URL
	for i := range urls {
		urls[i] = &url.URL{Scheme: "http", Host: fmt.Sprintf("h%d.example", i), Path: "/a/b"}
		many.SetCookies(urls[i], cookies)
		one.SetCookies(urls[i], cookies[:1])
	}
	if len(many.Cookies(urls[0])) != each || len(one.Cookies(urls[0])) != 1 {
		b.Fatal("a cookie is missing")
	}
	calls := []struct {
		name string
		call func(number int, u *url.URL)
	}{
		{"set", func(number int, u *url.URL) {
			first := number / hosts % each
			many.SetCookies(u, cookies[first:first+1])
		}},
		{"response", func(_ int, u *url.URL) { many.SetCookies(u, cookies) }},
		{"get_one", func(_ int, u *url.URL) { one.Cookies(u) }},
		{"get_many", func(_ int, u *url.URL) { many.Cookies(u) }},
	}
	for _, timed := range calls {
		b.Run(timed.name, func(b *testing.B) {
			b.ReportAllocs()
			for i := 0; i < b.N; i++ {
				timed.call(i, urls[i%hosts])
			}
		})
	}
}

func BenchmarkCalls(b *testing.B) {
	b.Run("Jar", func(b *testing.B) {
		benchmarkCalls(b, func() (http.CookieJar, error) { return New(nil) })
	})
	b.Run("cookiejar", func(b *testing.B) {
		benchmarkCalls(b, func() (http.CookieJar, error) { return cookiejar.New(nil) })
	})
}

// benchmarkShared has 16 goroutines, each with sites of its own, call Cookies and, for every tenth call, SetCookies.
func benchmarkShared(b *testing.B, jar http.CookieJar) {
	const goroutines, sites = 16, 64
	var urls [goroutines][sites]*url.URL
	cookies := responseCookies("a=1; Path=/", "b=2; Path=/; HttpOnly", "c=3; Path=/x")
	for g := range urls {
		for i := range urls[g] {
			urls[g][i] = &url.URL{Scheme: "https", Host: fmt.Sprintf("www.site%d-%d.co.uk", g, i), Path: "/x/page"}
			jar.SetCookies(urls[g][i], cookies)
		}
	}
	var next int32
	b.ReportAllocs()
	b.SetParallelism((goroutines + runtime.GOMAXPROCS(0) - 1) / runtime.GOMAXPROCS(0))
	b.ResetTimer()
	b.RunParallel(func(pb *testing.PB) {
		own := &urls[int(atomic.AddInt32(&next, 1))%goroutines]
		for i := 0; pb.Next(); i++ {
			u := own[i%sites]
			if i%10 == 0 {
				jar.SetCookies(u, cookies)
			} else if len(jar.Cookies(u)) != 3 {
				b.Error("a cookie is missing")
			}
		}
	})
}

func BenchmarkSharedJar(b *testing.B) {
	list, err := SystemPublicSuffixList()
	if err != nil {
		b.Skip(err)
	}
	for _, shards := range []int{1, 4, 16} {
		b.Run(fmt.Sprintf("shards=%d", shards), func(b *testing.B) {
			jar, err := New(&Options{PublicSuffixList: list, Strict: true, Shards: shards})
			if err != nil {
				b.Fatal(err)
			}
			defer jar.Close()
			benchmarkShared(b, jar)
		})
	}
	b.Run("cookiejar", func(b *testing.B) {
		jar, err := cookiejar.New(&cookiejar.Options{PublicSuffixList: lastLabels{}})
		if err != nil {
			b.Fatal(err)
		}
		benchmarkShared(b, jar)
	})
}

// lastLabels is a list for cookiejar: its public suffixes have two labels.
type lastLabels struct{}

func (lastLabels) PublicSuffix(domain string) string {
	labels := strings.Split(domain, ".")
	if len(labels) > 2 {
		labels = labels[len(labels)-2:]
	}
	return strings.Join(labels, ".")
}

func (lastLabels) String() string { return "two labels" }
