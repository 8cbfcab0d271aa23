package cookiestore

import (
	"context"
	"crypto/tls"
	"errors"
	"fmt"
	"io"
	"net"
	"net/http"
	"net/http/cookiejar"
	"net/http/httptest"
	"net/url"
	"reflect"
	"strings"
	"testing"
	"time"
)

// received returns the cookies of a response with these Set-Cookie headers.
func received(values ...string) []*http.Cookie {
	return (&http.Response{Header: http.Header{"Set-Cookie": values}}).Cookies()
}

func names(jar http.CookieJar, u *url.URL) string {
	var names []string
	for _, cookie := range jar.Cookies(u) {
		names = append(names, cookie.Name)
	}
	return strings.Join(names, " ")
}

func TestSetCookies(t *testing.T) {
	page := parseURL(t, "https://example.com/foo/bar")
	// A date that net/http cannot read, but RFC 6265 5.1.1 can.
	const odd = "a=1; Expires=Thu Dec 31 23:59:59 2099"
	changed := received(odd)[0]
	changed.Value = "2"
	session := Cookie{Domain: "example.com", Path: "/foo", Name: "a", Value: "2", HostOnly: true}
	persistent := session
	persistent.Value, persistent.Expires = "1", endOf2099
	for name, row := range map[string]struct {
		cookie *http.Cookie
		want   []Cookie
	}{
		"received":       {received(odd)[0], []Cookie{persistent}},
		"changed":        {changed, []Cookie{session}},
		"made by hand":   {&http.Cookie{Name: "a", Value: "2"}, []Cookie{session}},
		"an invalid Raw": {&http.Cookie{Name: "a", Value: "2", Raw: "b"}, []Cookie{session}},
		"all fields": {
			&http.Cookie{Name: "a", Value: "2", Path: "/", Domain: ".example.com", MaxAge: 60, Secure: true, HttpOnly: true},
			[]Cookie{{"example.com", "/", "a", "2", start.Add(time.Minute), false, true, true, 0}},
		},
		"Expires":           {&http.Cookie{Name: "a", Value: "1", Expires: endOf2099}, []Cookie{persistent}},
		"an invalid name":   {&http.Cookie{Name: "a b", Value: "2"}, nil},
		"rejected":          {&http.Cookie{Name: "a", Value: "2", Domain: "other.com"}, nil},
		"expired, unstored": {&http.Cookie{Name: "a", Value: "2", MaxAge: -1}, nil},
	} {
		jar := newJar(t, nil)
		jar.SetCookies(page, []*http.Cookie{row.cookie})
		expectAll(t, name, jar, row.want)
	}
}

// The values of Cookies are those that net/http reads and writes.
func TestCookiesOfRequest(t *testing.T) {
	jar, page := newJar(t, nil), parseURL(t, "http://example.com/foo/bar")
	parseAll(t, jar, page.String(), "a=1; Path=/", `b="x, y"`, `c="z"`, "d=e=f", "g=", `h=é\`)
	want := [][2]string{{"b", "x, y"}, {"c", "z"}, {"d", "e=f"}, {"g", ""}, {"h", `é\`}, {"a", "1"}}
	got := jar.Cookies(page)
	if len(got) != len(want) {
		t.Fatalf("%d cookies, want %d", len(got), len(want))
	}
	for i, cookie := range got {
		if cookie.Name != want[i][0] || cookie.Value != want[i][1] {
			t.Errorf("cookie %d is %q=%q, want %q", i, cookie.Name, cookie.Value, want[i])
		}
	}
	if cookies := jar.Cookies(parseURL(t, "http://other.com/")); cookies != nil {
		t.Errorf("another host has %v", cookies)
	}
}

// What a page gets after a response is what net/http/cookiejar returns, in the same order.
func TestSameAsCookiejar(t *testing.T) {
	for _, row := range [][]string{ // the URL of the response, that of the request, and the Set-Cookie headers
		{"http://example.com/", "http://example.com/x", "a=1", "b=2; Path=/x", "c=3", "a=4"},
		{"http://example.com/x/y/z", "http://example.com/x/y", "a=1", "b=2; Path=/x", "c=3; Path=/x/y/z", "d=4; Path=x"},
		{"http://a.example.com/", "http://b.example.com/", "a=1", "b=2; Domain=example.com", "c=3; Domain=.EXAMPLE.com"},
		{"http://example.com/", "http://example.com/", "a=1; Domain=a.example.com", "b=2; Domain=ample.com", "c=3; Domain="},
		{"https://example.com/", "http://example.com/", "a=1; Secure", "b=2; HttpOnly", "c=3; SameSite=Strict"},
		{"https://example.com/", "https://example.com:8443/", "a=1; Secure", "b=2; secure=no", "c=3; Unknown=x"},
		{"http://example.com/", "http://example.com/", "a=1", "b=2", "c=3", "a=; Max-Age=0", "b=; Max-Age=-1"},
		{"http://example.com/", "http://example.com/", "a=1", "b=2", "a=; Expires=Thu, 01 Jan 1970 00:00:00 GMT"},
		{"http://example.com/", "http://example.com/", "a=1; Max-Age=60; Expires=Thu, 01 Jan 1970 00:00:00 GMT"},
		{"http://example.com/", "http://example.com/", "a=1; Max-Age=x", "b=2; Expires=x", "c=3; Path=", "=4", "e", ""},
		{"http://example.com/", "http://example.com/", `a="x y"`, "b=x,y", "c=x=y", "d=é", "e f=1"},
		{"http://127.0.0.1/", "http://127.0.0.1/", "a=1", "b=2; Domain=0.0.1"},
		{"http://bücher.example/", "http://xn--bcher-kva.example/", "a=1", "b=2; Domain=xn--bcher-kva.example"},
	} {
		jar := newJar(t, nil)
		peer, err := cookiejar.New(nil)
		if err != nil {
			t.Fatal(err)
		}
		from, to, values := parseURL(t, row[0]), parseURL(t, row[1]), received(row[2:]...)
		jar.SetCookies(from, values)
		peer.SetCookies(from, values)
		if got, want := names(jar, to), names(peer, to); got != want {
			t.Errorf("%q: %q, want %q", row, got, want)
		}
	}
}

// Where net/http/cookiejar returns something else.
func TestUnlikeCookiejar(t *testing.T) {
	for _, row := range []struct{ why, from, to, value, want string }{
		{"RFC 6265 5.1.1 reads dates that net/http does not",
			"http://example.com/", "http://example.com/", "a=1; Expires=Thu Jan  1 00:00:00 1970", ""},
		{"a host with a dot at its end is another one, RFC 6265 5.1.3",
			"http://example.com/", "http://example.com./", "a=1", ""},
		{"the default-path is that of the URL as it is sent, RFC 6265 5.1.4",
			"http://example.com/a%2Fb/c", "http://example.com/a/b", "a=1", ""},
		{"a Path is compared with the URL as it is sent, RFC 6265 5.1.4",
			"http://example.com/", "http://example.com/a%20b", "a=1; Path=/a%20b", "a"},
		{"RFC 6265 5.3 rejects only HttpOnly cookies from other schemes",
			"ftp://example.com/", "http://example.com/", "a=1", "a"},
		{"this machine counts as secure, as it does to browsers",
			"https://localhost/", "http://localhost/", "a=1; Secure", "a"},
		{"a WebSocket handshake is HTTP, RFC 6455 4.1",
			"wss://example.com/", "https://example.com/", "a=1; Secure; HttpOnly", "a"},
		{"a host that ends in a number is an IPv4 address in URLs, and a name to net/http",
			"http://web.1/", "http://web.1/", "a=1", ""},
		{"the same, if there is such an address",
			"http://127.1/", "http://127.1/", "a=1", ""},
		{"a URL has no zone of an IPv6 address",
			"http://[fe80::1%25eth0]/", "http://[fe80::1%25eth0]/", "a=1", ""},
	} {
		jar := newJar(t, nil)
		peer, err := cookiejar.New(nil)
		if err != nil {
			t.Fatal(err)
		}
		from, to, values := parseURL(t, row.from), parseURL(t, row.to), received(row.value)
		jar.SetCookies(from, values)
		peer.SetCookies(from, values)
		if got := names(jar, to); got != row.want {
			t.Errorf("%s: %q, want %q", row.why, got, row.want)
		}
		if got := names(peer, to); got == row.want {
			t.Errorf("%s: cookiejar returns %q too", row.why, got)
		}
	}
}

// The host whose cookies a URL has is the one that net/http connects to, or none.
func TestHostIsThatOfTheConnection(t *testing.T) {
	const either = "either" // as this version of Unicode has it
	var dialed string
	transport := &http.Transport{DialContext: func(_ context.Context, _, address string) (net.Conn, error) {
		dialed, _, _ = net.SplitHostPort(address)
		return nil, io.ErrClosedPipe
	}}
	for target, want := range map[string]string{
		"http://example.com":                 "example.com",
		"http://EXAMPLE.com:80/":             "example.com",
		"http://example.com:8080/":           "example.com",
		"http://example.com:/":               "example.com",
		"http://example.com./":               "example.com.",
		"http://other.com@example.com/":      "example.com",
		"http://other.com:80@example.com/":   "example.com",
		"http://other.com%5C@example.com/":   "example.com",
		"http://example.com?@other.com/":     "example.com",
		"http://example.com#@other.com/":     "example.com",
		"http://example.com/@other.com/":     "example.com",
		"http://a_b.example/":                "a_b.example",
		"http://127.0.0.1/":                  "127.0.0.1",
		"http://[::1]:80/":                   "::1",
		"http://[0:0::0:1]/":                 "::1",
		"http://b\u00fccher.example/":        "xn--bcher-kva.example",
		"http://B\u00dcCHER.example:8080/":   "xn--bcher-kva.example",
		"http://b%C3%BCcher.example/":        "xn--bcher-kva.example",
		"http://xn--bcher-kva.example/":      "xn--bcher-kva.example",
		"http://fa\u00df.example/":           "xn--fa-hia.example",
		"http://example\u3002com/":           "example.com",
		"http://\uff11\uff12\uff17.0.0.1/":   "127.0.0.1",
		"http://\u2f47.example/":             "xn--wgv.example",
		"http://127.1/":                      "",
		"http://127.0.0.1./":                 "",
		"http://0x7f.0.0.1/":                 "",
		"http://2130706433/":                 "",
		"http://0177.0.0.1/":                 "",
		"http://1.2.3.300/":                  "",
		"http://web.1/":                      "",
		"http://[fe80::1%25eth0]/":           "",
		"http://a_b\u00fccher.example/":      "", // net/http connects to the name as it is
		"http://example.com\u2100other.com/": "",
		"http://%EF%BC%85.example/":          "",
		"http://example<.com/":               "",
		"http://xn--a.example/":              "xn--a.example",
		"http://\u1e9e.example/":             either,
		"http://\u0130.example/":             "xn--i-9bb.example",
		"http://a\u200db.example/":           "",
		"http://\U0001f600.example/":         "xn--e28h.example",
		"http://example.com:99999/":          "",
	} {
		jar := newJar(t, nil)
		u := parseURL(t, target)
		got := ""
		if err := jar.Parse(u, "a=1"); err == nil {
			got = strings.Trim(jar.All()[0].Domain, "[]")
		} else {
			expectStatus(t, target, err, ErrBadURL)
		}
		if got != want && want != either {
			t.Errorf("%s: a cookie of %q, want %q", target, got, want)
		}
		if _, err := (&http.Client{Transport: transport}).Get(target); !errors.Is(err, io.ErrClosedPipe) {
			t.Errorf("%s: %v, want it dialed", target, err)
		}
		if ip := net.ParseIP(dialed); ip != nil {
			dialed = ip.String()
		}
		if got != "" && !strings.EqualFold(got, dialed) {
			t.Errorf("%s: a cookie of %q, and a connection to %q", target, got, dialed)
		}
	}
}

// A server cannot have the cookies of another host by a redirect to a URL that two readers could read as of two hosts, nor set one
// for that host.
func TestRedirectToAmbiguousURL(t *testing.T) {
	const steal = "/steal"
	var location string
	stolen := false
	server := httptest.NewServer(http.HandlerFunc(func(w http.ResponseWriter, r *http.Request) {
		if r.URL.Path == "/redirect" {
			w.Header().Set("Location", location)
			w.WriteHeader(http.StatusFound)
			return
		}
		stolen = stolen || strings.Contains(r.Header.Get("Cookie"), "secret")
		w.Header().Set("Set-Cookie", "planted=1")
	}))
	defer server.Close()
	host := strings.TrimPrefix(server.URL, "http://") // 127.0.0.1 with a port
	for _, row := range []struct {
		location string
		follows  bool
	}{
		{`http://localhost\@` + host + steal, false},
		{`//localhost\@` + host + steal, false},
		{`http://` + host + `\@localhost` + steal, false},
		{`http:\\` + host + steal, false},
		{"http:" + host + steal, false},
		{"http://localhost %00@" + host + steal, false},
		{"http://localhost%00@" + host + steal, true},
		{"http://localhost%5C@" + host + steal, true},
		{"http://localhost@" + host + steal, true},
		{"http://localhost:80@" + host + steal, true},
	} {
		jar := newJar(t, nil)
		parseAll(t, jar, "http://localhost/", "secret=1; Path=/")
		location = row.location
		response, err := (&http.Client{Jar: jar}).Get(server.URL + "/redirect")
		if err == nil {
			response.Body.Close()
		}
		if (err == nil) != row.follows {
			t.Errorf("%q: %v", location, err)
		}
		if stolen {
			t.Fatalf("%q: the server got the cookie of localhost", location)
		}
		want := []Cookie{{Domain: "localhost", Path: "/", Name: "secret", Value: "1", HostOnly: true}}
		if row.follows {
			want = append(want, Cookie{Domain: "127.0.0.1", Path: "/", Name: "planted", Value: "1", HostOnly: true})
		}
		expectAll(t, location, jar, want)
	}
}

// A loaded list may have what a header must not have.
func TestControlCharactersAreNotSent(t *testing.T) {
	var got http.Header
	server := httptest.NewServer(http.HandlerFunc(func(w http.ResponseWriter, r *http.Request) { got = r.Header }))
	defer server.Close()
	var list []string
	for _, raw := range []string{`first=1`, `crlf=1\r\nX: y`, `lf=1\n2`, `nul=1\u0000`, `us=1\u001f`, `del=1\u007f`, `na\r\nX: me=1`,
		`tab=1\t2`, `last=\u00e9`} {
		list = append(list, fmt.Sprintf(`{"raw_cookie": "%s; Path=/", "path": ["/", true], "domain": {"HostOnly": "127.0.0.1"},
			"expires": "SessionEnd"}`, raw))
	}
	var dropped []string
	jar, err := Load(strings.NewReader("["+strings.Join(list, ",")+"]"), JSON, UnexpiredCookies, &Options{
		OnDropped: func(host, name string, err error) {
			if !errors.Is(err, ErrControlCharacter) || "http://"+host != server.URL {
				t.Errorf("%s: %v", host, err)
			}
			dropped = append(dropped, name)
		}})
	if err != nil {
		t.Fatal(err)
	}
	defer jar.Close()
	if jar.Len() != len(list) {
		t.Fatalf("%d cookies, want %d", jar.Len(), len(list))
	}
	header, err := jar.Header(parseURL(t, server.URL))
	if want := "first=1; tab=1\t2; last=\u00e9"; err != nil || header != want {
		t.Errorf("Header() = %q, %v, want %q", header, err, want)
	}
	wantDropped := []string{"crlf", "lf", "nul", "us", "del", "na\r\nX: me"}
	if !reflect.DeepEqual(dropped, wantDropped) {
		t.Errorf("dropped %q, want %q", dropped, wantDropped)
	}

	exact, err := http.NewRequest("GET", server.URL, nil)
	if err != nil {
		t.Fatal(err)
	}
	exact.Header.Set("Cookie", header)
	plain := exact.Clone(context.Background())
	plain.Header.Del("Cookie")
	for _, row := range []struct {
		client  *http.Client
		request *http.Request
		want    string
	}{
		{new(http.Client), exact, header},
		{&http.Client{Jar: jar}, plain, "first=1; tab=12; last="}, // net/http leaves out more
	} {
		response, err := row.client.Do(row.request)
		if err != nil {
			t.Fatal(err)
		}
		response.Body.Close()
		if cookie := got.Get("Cookie"); cookie != row.want || got.Get("X") != "" {
			t.Errorf("the server got %q, want %q", got, row.want)
		}
	}
	if want := append(wantDropped, wantDropped...); !reflect.DeepEqual(dropped, want) {
		t.Errorf("dropped %q, want %q", dropped, want)
	}
}

// A WebSocket handshake is a request by HTTP.
func TestWebSocket(t *testing.T) {
	jar := newJar(t, &Options{Strict: true})
	parseAll(t, jar, "https://example.com/", "secure=1; Secure; HttpOnly")
	parseAll(t, jar, "http://example.com/", "plain=2; HttpOnly")
	parseAll(t, jar, "wss://example.com/", "__Host-b=3; Secure; HttpOnly; Path=/")
	parseAll(t, jar, "ws://example.com/", "a=4; HttpOnly")
	expectStatus(t, "ws", jar.Parse(parseURL(t, "ws://example.com/"), "b=5; Secure"), ErrInsecureURL)
	const plain, all = "plain=2; a=4", "secure=1; plain=2; __Host-b=3; a=4"
	for to, want := range map[string]string{"ws": plain, "http": plain, "wss": all, "https": all, "WSS": all, "ftp": "", "wsss": ""} {
		got, err := jar.Header(&url.URL{Scheme: to, Host: "example.com"})
		if err != nil || got != want {
			t.Errorf("%s: %q, %v, want %q", to, got, err, want)
		}
	}
}

// What SetCookies and Cookies drop is reported, without values.
func TestDropped(t *testing.T) {
	var jar *Jar
	var got []string
	jar = newJar(t, &Options{OnDropped: func(host, name string, err error) {
		got = append(got, fmt.Sprintf("%s %s: %v (%d stored)", host, name, err, jar.Len())) // the jar is not locked
	}})
	for _, row := range []struct {
		target string
		values []string
		want   []string
	}{
		{"http://example.com/", []string{"a=value", "b=value; Max-Age=60"}, nil},
		{"http://example.com/?query=value", []string{"c=value; Domain=other.com", "d=value", "e=value; Domain=com.example"}, []string{
			"example.com c: cookiestore: the host does not match the cookie's domain (3 stored)",
			"example.com e: cookiestore: the host does not match the cookie's domain (3 stored)"}},
		{"http://example.com:80/", []string{"a=value; Path=/\xff"}, []string{"example.com:80 a: cookiestore: not UTF-8 (3 stored)"}},
		{"http://example.com/", []string{"none=value; Max-Age=0"}, []string{"example.com none: cookiestore: the cookie has expired (3 stored)"}},
		{"http://web.1/", []string{"a=value"}, []string{
			"web.1 a: cookiestore: not a valid URL (3 stored)", "web.1 : cookiestore: not a valid URL (3 stored)"}},
		{"http://1.2.3.300/", nil, []string{"1.2.3.300 : cookiestore: not a valid URL (3 stored)"}},
		{"http://user:value@[fe80::1%25eth0]/", []string{"a=value"}, []string{
			"[fe80::1%eth0] a: cookiestore: not a valid URL (3 stored)", "[fe80::1%eth0] : cookiestore: not a valid URL (3 stored)"}},
	} {
		got = nil
		u := parseURL(t, row.target)
		jar.SetCookies(u, received(row.values...))
		jar.Cookies(u)
		if !reflect.DeepEqual(got, row.want) {
			t.Errorf("%s, %q: %q, want %q", row.target, row.values, got, row.want)
		}
	}
	got = nil
	jar.SetCookies(nil, []*http.Cookie{{Name: "a", Value: "value"}})
	jar.Close()
	jar.SetCookies(parseURL(t, "http://example.com/"), []*http.Cookie{{Name: "a", Value: "value"}})
	jar.Cookies(parseURL(t, "http://example.com/"))
	want := []string{" a: cookiestore: not a valid URL (3 stored)", "example.com a: cookiestore: the jar is closed (0 stored)",
		"example.com : cookiestore: the jar is closed (0 stored)"}
	if !reflect.DeepEqual(got, want) {
		t.Errorf("%q, want %q", got, want)
	}
}

// newClient returns a client that has the jar and finds every host at one server, by http and by https. The path /set sets the
// cookies c of the query, /redirect then goes to the URL in `to`, and every body is the Cookie header of the request.
func newClient(t *testing.T, jar http.CookieJar) *http.Client {
	handler := http.HandlerFunc(func(w http.ResponseWriter, r *http.Request) {
		for _, value := range r.URL.Query()["c"] {
			w.Header().Add("Set-Cookie", value)
		}
		if r.URL.Path == "/redirect" {
			http.Redirect(w, r, r.URL.Query().Get("to"), http.StatusFound)
			return
		}
		io.WriteString(w, r.Header.Get("Cookie"))
	})
	plain, secure := httptest.NewServer(handler), httptest.NewTLSServer(handler)
	t.Cleanup(plain.Close)
	t.Cleanup(secure.Close)
	dial := func(ctx context.Context, network, address string) (net.Conn, error) {
		server := plain
		if strings.HasSuffix(address, ":443") {
			server = secure
		}
		return new(net.Dialer).DialContext(ctx, network, server.Listener.Addr().String())
	}
	roots := secure.Client().Transport.(*http.Transport).TLSClientConfig.RootCAs // of a certificate of example.com
	transport := &http.Transport{DialContext: dial, TLSClientConfig: &tls.Config{RootCAs: roots}}
	t.Cleanup(transport.CloseIdleConnections)
	return &http.Client{Jar: jar, Transport: transport, Timeout: 10 * time.Second}
}

func TestClient(t *testing.T) {
	jar := newJar(t, nil)
	client := newClient(t, jar)
	for _, row := range []struct {
		target string
		query  url.Values
		after  time.Duration // from the start to the request
		want   string        // the body of the last response
	}{
		{"http://example.com/redirect", url.Values{"c": {"a=1"}, "to": {"/"}}, 0, "a=1"},
		{"http://example.com/redirect", url.Values{"c": {"b=2"}, "to": {"http://other.com/"}}, 0, ""},
		{"http://other.com/redirect", url.Values{"to": {"http://example.com/"}}, 0, "a=1; b=2"},
		{"https://example.com/set", url.Values{"c": {"s=3; Secure; HttpOnly", "t=4; Max-Age=60"}}, 0, "a=1; b=2"},
		{"https://example.com/", nil, 0, "a=1; b=2; s=3; t=4"},
		{"http://example.com/", nil, 0, "a=1; b=2; t=4"},
		{"http://example.com/", nil, 59 * time.Second, "a=1; b=2; t=4"},
		{"http://example.com/", nil, 60 * time.Second, "a=1; b=2"},
		{"http://example.com/set", url.Values{"c": {"a=; Max-Age=0", `q="x y"`, "r=x,y"}}, 60 * time.Second, "a=1; b=2"},
		{"http://example.com/", nil, 60 * time.Second, `b=2; q="x y"; r="x,y"`}, // net/http quotes what has a comma
		{"http://example.com/set", url.Values{"c": {"x=1; Domain=other.com"}}, 60 * time.Second, `b=2; q="x y"; r="x,y"`},
		{"http://other.com/", nil, 60 * time.Second, ""},
	} {
		setClock(jar, start.Add(row.after))
		response, err := client.Get(row.target + "?" + row.query.Encode())
		if err != nil {
			t.Fatal(err)
		}
		body, err := io.ReadAll(response.Body)
		response.Body.Close()
		if err != nil || string(body) != row.want {
			t.Errorf("%s?%v after %v: %q, %v, want %q", row.target, row.query, row.after, body, err, row.want)
		}
	}
}

// One call for all cookies of a response does what a call of Parse for each does.
func TestSetCookiesAsParse(t *testing.T) {
	cookies := received("a=1", "b=2; Domain=other.com", "a=3", "c=4; Path=/\xff", "d=5; Max-Age=0", "e=6; Path=/", "f=7; Secure", "a=; Max-Age=0")
	for _, address := range []string{"http://example.com/x/y", "https://example.com/", "http://web.1/"} {
		for _, strict := range []bool{false, true} {
			var dropped, want []string
			jar := newJar(t, &Options{Strict: strict, OnDropped: func(_, name string, err error) {
				dropped = append(dropped, fmt.Sprint(name, err))
			}})
			peer, u := newJar(t, &Options{Strict: strict}), parseURL(t, address)
			jar.SetCookies(u, cookies)
			jar.SetCookies(u, nil)
			for _, cookie := range cookies {
				if err := peer.Parse(u, cookie.Raw); err != nil {
					want = append(want, fmt.Sprint(cookie.Name, err))
				}
			}
			if !reflect.DeepEqual(dropped, want) {
				t.Errorf("%s: dropped %q, want %q", address, dropped, want)
			}
			expectAll(t, address, jar, peer.All())
		}
	}
}
