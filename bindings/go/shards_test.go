package cookiestore

import (
	"bytes"
	"errors"
	"fmt"
	"hash/fnv"
	"io"
	"net/http"
	"net/url"
	"reflect"
	"sort"
	"strings"
	"sync"
	"testing"
	"time"
)

// nested is a list under which sites nest below kobe.jp.
var nested = []byte("com\njp\n*.kobe.jp\nuk\nco.uk\n")

// roots are hosts with their roots under that list.
var roots = map[string]string{
	"www.example.com":   "example.com",
	"example.com":       "example.com",
	"com":               "com",
	"a.example.co.uk":   "example.co.uk",
	"a.b.kobe.jp":       "kobe.jp",
	"kobe.jp":           "kobe.jp",
	"b.a.localhost":     "a.localhost",
	"127.0.0.1":         "127.0.0.1",
	"[::1]":             "[::1]",
	"www.example.com.":  "example.com.",
	"xn--bcher-kva.com": "xn--bcher-kva.com",
}

func hostsOf(roots map[string]string) (hosts []string) {
	for host := range roots {
		hosts = append(hosts, host)
	}
	sort.Strings(hosts)
	return hosts
}

func TestRoots(t *testing.T) {
	jar := newJar(t, &Options{PublicSuffixList: nested})
	for host, want := range roots {
		for _, text := range []string{"https://" + host + ":8080/x?y", "ftp://" + strings.ToUpper(host) + "/"} {
			if got, err := jar.Root(parseURL(t, text)); err != nil || got != want {
				t.Errorf("Root(%s) = %q, %v, want %q", text, got, err, want)
			}
		}
		if got, err := jar.RootOfDomain(host); err != nil || got != want {
			t.Errorf("RootOfDomain(%s) = %q, %v, want %q", host, got, err, want)
		}
	}
	if got, err := jar.Root(parseURL(t, "http://bücher.com/")); err != nil || got != "xn--bcher-kva.com" {
		t.Errorf("the root in Punycode = %q, %v", got, err)
	}
}

func TestRootErrors(t *testing.T) {
	jar, plain := newJar(t, &Options{PublicSuffixList: nested}), newJar(t, nil)
	if _, err := jar.Root(parseURL(t, "http://127.1/")); !errors.Is(err, ErrBadURL) {
		t.Errorf("Root of an ambiguous URL: %v", err)
	}
	if _, err := jar.RootOfDomain("\xff"); !errors.Is(err, ErrNotUTF8) {
		t.Errorf("RootOfDomain of a string that is not UTF-8: %v", err)
	}
	if _, err := plain.Root(parseURL(t, "http://a/")); !errors.Is(err, ErrNoList) {
		t.Errorf("Root without a list: %v", err)
	}
	plain.Close()
	if _, err := plain.RootOfDomain("a"); !errors.Is(err, ErrClosed) {
		t.Errorf("RootOfDomain of a closed jar: %v", err)
	}
}

// The hashes are those that the authors of FNV publish, and those of hash/fnv.
func TestShard(t *testing.T) {
	for root, want := range map[string]uint64{"": 0xcbf29ce484222325, "a": 0xaf63dc4c8601ec8c, "foobar": 0x85944171f73967e8} {
		hash := fnv.New64a()
		io.WriteString(hash, root)
		for _, shards := range []int{1, 2, 16, 1 << 31} {
			if got := Shard(root, shards); uint64(got) != want%uint64(shards) || hash.Sum64() != want {
				t.Errorf("Shard(%q, %d) = %d", root, shards, got)
			}
		}
	}
	defer func() {
		if recover() == nil {
			t.Error("Shard of no shards does not panic")
		}
	}()
	Shard("a", 0)
}

func TestShardsNeedRules(t *testing.T) {
	for _, test := range []struct {
		options Options
		want    error
	}{
		{Options{Shards: -1}, ErrBadLimit},
		{Options{Shards: 2, Strict: true}, ErrBadOption},
		{Options{Shards: 2, PublicSuffixList: nested}, ErrBadOption},
		{Options{Shards: 2, Strict: true, PublicSuffixList: []byte("/")}, ErrBadRule},
		{Options{Shards: 1}, nil},
	} {
		jar, err := New(&test.options)
		if !errors.Is(err, test.want) {
			t.Errorf("New(%+v): %v, want %v", test.options, err, test.want)
		}
		if jar != nil {
			jar.Close()
		}
	}
}

// strictOptions are those of a jar that may be split.
func strictOptions(shards int) *Options {
	return &Options{PublicSuffixList: nested, DomainLimit: 3, Strict: true, Shards: shards}
}

// values are Set-Cookie header values, some of which no host may set.
var values = []string{"a=1", "b=2; Domain=example.com", "c=3; Domain=kobe.jp; Path=/d", "d=4; Domain=com", "e=5; Domain=example.co.uk",
	"a=6; Max-Age=0", "f=7; Path=/", "g=8; Path=/"}

// fill inserts the values from all hosts, and returns what was returned.
func fill(t *testing.T, jar *Jar) (results []string) {
	for _, host := range hostsOf(roots) {
		for _, value := range values {
			results = append(results, fmt.Sprint(jar.Parse(parseURL(t, "http://"+host+"/d/page"), value)))
		}
	}
	return results
}

// headers returns the headers of all hosts.
func headers(t *testing.T, jar *Jar) (headers []string) {
	for _, host := range hostsOf(roots) {
		header, err := jar.Header(parseURL(t, "http://"+host+"/d/page"))
		headers = append(headers, fmt.Sprint(header, err))
	}
	return headers
}

func sorted(cookies []Cookie) []Cookie {
	sort.Slice(cookies, func(i, j int) bool { return fmt.Sprint(cookies[i]) < fmt.Sprint(cookies[j]) })
	return cookies
}

func expectSame(t *testing.T, what string, got, want any) {
	t.Helper()
	if !reflect.DeepEqual(got, want) {
		t.Errorf("%s: %v, want %v", what, got, want)
	}
}

// A jar that is split does what one store does.
func TestSplitJar(t *testing.T) {
	one, split := newJar(t, strictOptions(1)), newJar(t, strictOptions(5))
	expectSame(t, "results", fill(t, split), fill(t, one))
	expectSame(t, "headers", headers(t, split), headers(t, one))
	expectSame(t, "cookies", sorted(split.All()), sorted(one.All()))
	expectSame(t, "number", split.Len(), one.Len())
	for _, jar := range []*Jar{one, split} {
		setClock(jar, start.Add(time.Second))
	}
	removed, err := one.RemoveExpired()
	splitRemoved, splitErr := split.RemoveExpired()
	expectSame(t, "expired", []any{splitRemoved, splitErr}, []any{removed, err})
	for _, cookie := range one.All() {
		expectSame(t, "insertion", split.Insert(cookie), one.Insert(cookie))
	}
	expectSame(t, "headers after insertions", headers(t, split), headers(t, one))
	for _, domain := range []string{"kobe.jp", "none.example", "\xff"} {
		count, err := one.RemoveDomain(domain)
		splitCount, splitErr := split.RemoveDomain(domain)
		expectSame(t, "removal of "+domain, []any{splitCount, splitErr}, []any{count, err})
	}
	for _, cookie := range one.All() {
		if err := split.Remove(cookie.Domain, cookie.Path, cookie.Name); err != nil {
			t.Errorf("Remove of %v: %v", cookie, err)
		}
	}
	expectSame(t, "number in the end", split.Len(), 0)
}

// What a split jar saves is what one store saves, but for the order of the domains, and it loads as that.
func TestSplitFiles(t *testing.T) {
	one, split := newJar(t, strictOptions(1)), newJar(t, strictOptions(5))
	fill(t, one)
	fill(t, split)
	for _, format := range []Format{JSON, RON, Netscape} {
		for _, jar := range []*Jar{one, split, newJar(t, strictOptions(4))} {
			var file bytes.Buffer
			if err := jar.Save(&file, format, AllCookies); err != nil {
				t.Fatal(err)
			}
			loaded, err := Load(bytes.NewReader(file.Bytes()), format, AllCookies, strictOptions(3))
			if err != nil {
				t.Fatalf("Load: %v of\n%s", err, file.String())
			}
			defer loaded.Close()
			setClock(loaded, start)
			expectSame(t, "loaded number", loaded.Len(), jar.Len())
			expectSame(t, "loaded headers", headers(t, loaded), headers(t, jar))
			var again bytes.Buffer
			if err := loaded.Save(&again, format, AllCookies); err != nil {
				t.Fatal(err)
			}
			expectSame(t, "length", again.Len(), file.Len())
		}
	}
}

// A jar of many domains is loaded into shards and merged in time that grows with their number, not with its square.
func TestSplitManyDomains(t *testing.T) {
	const domains, most = 50_000, 10 * time.Second
	list := strings.Builder{}
	for i := 0; i < domains; i++ {
		fmt.Fprintf(&list, ".h%d.com\tTRUE\t/\tFALSE\t4000000000\ta\t1\n", i)
	}
	begun := time.Now()
	jar, err := Load(strings.NewReader("# Netscape HTTP Cookie File\n"+list.String()), Netscape, AllCookies, strictOptions(4))
	if err != nil {
		t.Fatal(err)
	}
	defer jar.Close()
	expectSame(t, "number", jar.Len(), domains)
	other := newJar(t, strictOptions(3))
	leftOut, err := other.Merge(jar)
	expectSame(t, "left out", []any{leftOut, err, other.Len()}, []any{0, nil, domains})
	if took := time.Since(begun); took > most {
		t.Errorf("%d domains took %v", domains, took)
	}
}

func TestSplitMerge(t *testing.T) {
	for _, shards := range [][2]int{{1, 1}, {1, 4}, {4, 1}, {4, 3}} {
		from, to := newJar(t, strictOptions(shards[0])), newJar(t, strictOptions(shards[1]))
		fill(t, from)
		leftOut, err := to.Merge(from)
		expectSame(t, "left out", []any{leftOut, err}, []any{from.Len() - to.Len(), nil})
		expectSame(t, "headers", headers(t, to), headers(t, from))
	}
}

func TestSplitJarCloses(t *testing.T) {
	jar := newJar(t, strictOptions(4))
	fill(t, jar)
	jar.Close()
	expectSame(t, "number", jar.Len(), 0)
	for _, host := range hostsOf(roots) {
		if _, err := jar.Header(parseURL(t, "http://"+host+"/")); !errors.Is(err, ErrClosed) {
			t.Errorf("Header of %s: %v", host, err)
		}
	}
	if err := jar.Clear(); !errors.Is(err, ErrClosed) {
		t.Errorf("Clear: %v", err)
	}
}

// More hosts than a jar remembers.
func TestManyHosts(t *testing.T) {
	jar := newJar(t, strictOptions(3))
	const hosts = mostHosts + 100
	for i := 0; i < hosts; i++ {
		parseAll(t, jar, fmt.Sprintf("http://h%d.example.com/", i%1000), "a=1")
		jar.shardOf(&url.URL{Scheme: "http", Host: fmt.Sprintf("h%d.example.com", i)})
	}
	expectHeader(t, jar, "http://h7.example.com/", "a=1")
	expectSame(t, "number", jar.Len(), 1000)
}

// Goroutines use a split jar, and others read, save and merge all of it.
func TestSplitJarIsShared(t *testing.T) {
	jar, other := newJar(t, strictOptions(4)), newJar(t, strictOptions(3))
	var group sync.WaitGroup
	run := func(count int, work func(i int)) {
		group.Add(1)
		go func() {
			defer group.Done()
			for i := 0; i < count; i++ {
				work(i)
			}
		}()
	}
	for g := 0; g < 8; g++ {
		u := parseURL(t, fmt.Sprintf("http://www.h%d.com/", g))
		run(300, func(i int) {
			jar.SetCookies(u, []*http.Cookie{{Name: fmt.Sprint("c", i%3), Value: "1", Domain: u.Host[4:]}})
			if got := len(jar.Cookies(u)); got != i+1 && got != 3 {
				t.Errorf("%d cookies after %d", got, i+1)
			}
		})
	}
	run(30, func(int) { jar.All(); jar.Len(); jar.RemoveExpired() })
	run(30, func(int) { jar.Save(io.Discard, JSON, AllCookies); other.Merge(jar) })
	run(30, func(int) { jar.Merge(other); jar.Remove("none.com", "/", "a") })
	group.Wait()
	expectSame(t, "number", jar.Len(), 24)
}
