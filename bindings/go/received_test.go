package cookiestore

import (
	"math/rand"
	"net/http"
	"reflect"
	"strings"
	"testing"
	"time"
)

// isReadAgain is isReceived by net/http itself and reflection.
func isReadAgain(cookie *http.Cookie) bool {
	for _, read := range received(cookie.Raw) {
		if reflect.DeepEqual(read, cookie) {
			return true
		}
	}
	return false
}

// isReceived compares all fields that net/http sets.
func TestFieldsOfCookie(t *testing.T) {
	want := map[string]bool{"Name": true, "Value": true, "Path": true, "Domain": true, "Expires": true, "RawExpires": true,
		"MaxAge": true, "Secure": true, "HttpOnly": true, "SameSite": true, "Raw": true, "Unparsed": true}
	if hasQuoted {
		want["Quoted"], want["Partitioned"] = true, true
	}
	got := map[string]bool{}
	for fields := reflect.TypeOf(http.Cookie{}); len(got) < fields.NumField(); {
		got[fields.Field(len(got)).Name] = true
	}
	if !reflect.DeepEqual(got, want) {
		t.Errorf("fields %v, want %v", got, want)
	}
}

// A cookie of a response is received, and is not if any field was changed.
func TestIsReceived(t *testing.T) {
	const date = "Thu, 31 Dec 2099 23:59:59 GMT"
	for _, value := range []string{
		"a=1", "a=", " a=1 ", "a=b=c", `a="1"`, `a="x, y"`, `a=""`, "a= 1", "a=x y,z", "\ta=1\r\n",
		"a=1; Path=/foo; Domain=.example.com; Expires=" + date + "; Max-Age=60; Secure; HttpOnly; SameSite=Lax; Partitioned",
		"a=1;path=/foo;domain=example.com;expires=" + date + ";max-age=60;secure;httponly;samesite=lax;partitioned",
		"a=1; PATH=/foo; dOMAIN=b; EXPIRES=" + date + "; MAX-AGE=60; SECURE; HTTPOnly; sameSite=STRICT; PARTITIONED",
		"a=1; Path=/; Path=/foo; Domain=b; Domain=; Max-Age=60; Max-Age=0; SameSite=None; SameSite; Secure=no",
		"a=1; Max-Age=-5", "a=1; Max-Age=+5", "a=1; Max-Age=0", "a=1; Max-Age=00", "a=1; Max-Age=060", "a=1; Max-Age=x; Max-Age",
		"a=1; Max-Age=60; Max-Age=99999999999999999999", "a=1; Path=/é; Domain=a\\b; Secure=\"; SameSite=\x7f",
		"a=1; Unknown; Priority=High; =; ;; Path =/; é=1; \x01; Path\t=/; " + strings.Repeat("x", 100),
		"a=1; Expires=Thu, 31-Dec-2099 23:59:59 GMT", "a=1; Expires=THU, 31 dec 2099 23:59:59 GMT",
		"a=1; Expires=Fri, 31 Dec 2099 23:59:59 GMT", "a=1; Expires=Thu, 31 Dec 2099 3:59:59 GMT",
		"a=1; Expires=Thu,  31 Dec 2099 23:59:59 GMT", "a=1; Expires=Thu, 31 Dec 2099 23:59:59.5 GMT",
		"a=1; Expires=Thu, 31 Dec 2099 23:59:59 UTC", "a=1; Expires=Thu, 31 Dec 2099 23:59:59 EST",
		"a=1; Expires=Thu, 31 Dec 2099 23:59:59 GMT+2", "a=1; Expires=Thu, 29 Feb 2024 00:00:00 GMT",
		"a=1; Expires=Thu, 29 Feb 2023 00:00:00 GMT", "a=1; Expires=Thu, 31 Apr 2099 00:00:00 GMT",
		"a=1; Expires=Thu, 00 Jan 2099 00:00:00 GMT", "a=1; Expires=Thu, 31 Dec 2099 24:00:00 GMT",
		"a=1; Expires=Thu, 31 Dec 2099 23:60:00 GMT", "a=1; Expires=Thu, 31 Dec 2099 23:59:60 GMT",
		"a=1; Expires=Thu, 01 Jan 0000 00:00:00 GMT", "a=1; Expires=Thu, 31-Dec 2099 23:59:59 GMT",
		"a=1; Expires=Thu, 31 Dec 20x9 23:59:59 GMT", "a=1; Expires=Thursday, 31-Dec-99 23:59:59 GMT",
		"a=1; Expires=Thu Dec 31 23:59:59 2099", "a=1; Expires=" + date + "; Expires=0", "a=1; Expires=0; Expires=" + date,
	} {
		cookies := received(value)
		if len(cookies) != 1 {
			t.Fatalf("%q: %d cookies", value, len(cookies))
		}
		if !isReceived(cookies[0]) {
			t.Errorf("%q is not received", value)
		}
		for field := 0; field < reflect.TypeOf(http.Cookie{}).NumField(); field++ {
			for _, changed := range changes(*cookies[0], field) {
				if changed.Raw == value && isReceived(&changed) || isReceived(&changed) != isReadAgain(&changed) {
					t.Errorf("%q: %+v is received", value, changed)
				}
			}
		}
	}
}

func TestIsReceivedDoesNotAllocate(t *testing.T) {
	for _, value := range []string{
		"a=1", `a="1"; Path=/; Secure; HttpOnly; SameSite=Lax; Max-Age=60; Domain=example.com; Unknown=1; PATH=/; Partitioned`,
		"a=1; Expires=Thu, 31 Dec 2099 23:59:59 GMT", "a=1; EXPIRES=Thu, 31-Dec-2099 23:59:59 GMT",
	} {
		cookie := received(value)[0]
		if allocations := testing.AllocsPerRun(100, func() { isReceived(cookie) }); allocations != 0 {
			t.Errorf("%q: %v allocations", value, allocations)
		}
	}
}

// changes returns copies of a cookie of which each has another value of the field.
func changes(cookie http.Cookie, field int) (changed []http.Cookie) {
	change := func(value interface{}) {
		other := cookie
		reflect.ValueOf(&other).Elem().Field(field).Set(reflect.ValueOf(value))
		changed = append(changed, other)
	}
	switch value := reflect.ValueOf(cookie).Field(field).Interface().(type) {
	case string:
		change(value + "x")
		change(value + " ")
		if value != "" {
			change("")
			change(value[1:])
		}
	case bool:
		change(!value)
	case int:
		change(value + 1)
	case http.SameSite:
		change(value + 1)
		change(value - 1)
	case time.Time:
		change(value.Add(time.Second))
		change(value.Add(time.Nanosecond))
		change(value.In(time.FixedZone("CET", 3600)))
		change(value.Local())
		change(time.Now())
	case []string:
		change(append([]string{"x"}, value...))
		change(append(append([]string{}, value...), "x"))
		if value == nil {
			change([]string{})
		} else {
			change(append([]string{value[0] + "x"}, value[1:]...))
			change(value[1:])
			change([]string(nil))
		}
	default:
		panic(value)
	}
	return changed
}

// Headers of random parts, and cookies of which fields were changed or come from another header, in several time zones.
func TestIsReceivedIsAsReadAgain(t *testing.T) {
	const rounds = 20000
	random := rand.New(rand.NewSource(1))
	local := time.Local
	defer func() { time.Local = local }()
	zones := []*time.Location{time.UTC, time.FixedZone("EST", -5*3600), time.FixedZone("MSK", 3*3600)}
	var last *http.Cookie
	both := [2]int{}
	for i := 0; i < rounds; i++ {
		time.Local = zones[i*len(zones)/rounds]
		value := randomHeader(random)
		cookies := received(value)
		if len(cookies) == 0 {
			cookies = []*http.Cookie{{Name: strings.TrimSpace(value), Raw: value}}
			if name, value, found := strings.Cut(value, "="); found {
				cookies[0].Name, cookies[0].Value = name, value
			}
		} else if !isReceived(cookies[0]) {
			t.Fatalf("%q is not received", value)
		}
		changed := changes(*cookies[0], random.Intn(reflect.TypeOf(http.Cookie{}).NumField()))
		changed = append(changed, *cookies[0])
		if last != nil {
			other := *last
			other.Raw = value
			changed = append(changed, other)
		}
		for _, cookie := range changed {
			want := isReadAgain(&cookie)
			if got := isReceived(&cookie); got != want {
				t.Fatalf("%+v: received %v, want %v", cookie, got, want)
			}
			if want {
				both[1]++
			} else {
				both[0]++
			}
		}
		last = cookies[0]
	}
	if both[0] < rounds || both[1] < rounds/2 {
		t.Errorf("%v cookies were changed and unchanged", both)
	}
}

// randomHeader returns a Set-Cookie header value, in which some parts are odd.
func randomHeader(random *rand.Rand) string {
	pick := func(from ...string) string { return from[random.Intn(len(from))] }
	space := func() string { return pick("", "", "", " ", " ", "\t", "  ", "\n", "\v") }
	spelled := func(name string) string {
		switch random.Intn(4) {
		case 0:
			return strings.ToLower(name)
		case 1:
			return strings.ToUpper(name)
		case 2:
			at := random.Intn(len(name) + 1)
			return strings.ToUpper(name[:at]) + name[at:]
		}
		return name
	}
	date := func() string {
		return pick("Sun", "Mon", "Tue", "Wed", "thu", "Fri", "SAT", "unM", "Thursday") + pick(",", ",", ",", "", ";") + pick(" ", " ", " ", "  ", "") +
			pick("01", "28", "29", "30", "31", "00", "32", "1", "x1") + pick(" ", "-", " ", "-", "/") +
			pick("Jan", "Feb", "Mar", "Apr", "jun", "SEP", "Dec", "nFe", "13") + pick(" ", "-", " ", "-", "  ") +
			pick("2099", "2024", "2023", "1900", "0000", "0001", "9999", "99", "-001") + pick(" ", " ", " ", "T") +
			pick("00", "23", "24", "7", "+1") + ":" + pick("00", "59", "60", "5") + ":" + pick("00", "59", "60", "59.5", "59,123") +
			pick(" ", " ", " ", "") + pick("GMT", "GMT", "GMT", "UTC", "EST", "MSK", "gmt", "GMT+1", "+0000", "")
	}
	text := func() string {
		return pick("", "1", "x y", "a,b", `"q"`, `"`, `""`, `"a`, "é", "\x00", "\x7f", `\`, "=", "a=b", "/foo", " /", "example.com",
			"Lax", "strict", "NONE", "0", "-1", "+7", "60", "060", "00", "-0", "+", "9223372036854775808", "ſ", "\xff")
	}
	header := "a=1"
	if random.Intn(2) == 0 {
		header = space() + pick("a", "b", "__Host-a", "a b", "", "é", "a@", "$x") + space() + pick("=", "=", "=", "") + space() + text() + space()
	}
	for random.Intn(5) > 0 {
		header += ";" + space()
		switch random.Intn(4) {
		case 0:
			header += spelled("Expires") + "=" + date()
		case 1:
			header += pick(spelled("Unknown"), "", "\x01", "é", "ſecure", "Path\x00", "Partitionedx", "Secur", text()) + pick("", "=") + text()
		default:
			header += spelled(pick("Path", "Domain", "Max-Age", "Secure", "HttpOnly", "SameSite", "Partitioned", "Expires")) +
				pick("", "", "", " ", "\t") + pick("=", "=", "=", "") + text()
		}
		header += space()
	}
	return header
}

// A cookie of a request is as net/http reads it, or the pair itself if it does not.
func TestReadPair(t *testing.T) {
	for _, name := range []string{"a", "", " a", "a ", "a b", "é", "a\x00"} {
		for _, value := range []string{"", "=", "=1", "= 1", "=1 ", `="x, y"`, `="`, `=""`, `="a`, `="a" `, "=é", "=a=b", `=\`, "=\t", "=a\tb"} {
			pair := name + value
			var got http.Cookie
			readPair(&got, pair)
			request := http.Request{Header: http.Header{"Cookie": {pair}}}
			var want http.Cookie
			if read := request.Cookies(); len(read) == 1 {
				want = *read[0]
			} else {
				want.Name, want.Value, _ = strings.Cut(pair, "=")
			}
			if !reflect.DeepEqual(got, want) {
				t.Errorf("%q: %+v, want %+v", pair, got, want)
			}
		}
	}
}
