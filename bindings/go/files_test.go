package cookiestore

import (
	"errors"
	"fmt"
	"io"
	"reflect"
	"strings"
	"testing"
	"testing/iotest"
	"time"
)

var endOf2099 = time.Date(2099, 12, 31, 23, 59, 59, 0, time.UTC)

const expires2099 = "; Expires=Thu, 31 Dec 2099 23:59:59 GMT"

// loadedJar returns a jar with all cookies of the list, and which is closed after the test.
func loadedJar(t *testing.T, list string, format Format) *Jar {
	t.Helper()
	jar, err := Load(strings.NewReader(list), format, AllCookies, nil)
	if err != nil {
		t.Fatalf("Load(%q): %v", list, err)
	}
	t.Cleanup(func() { jar.Close() })
	return jar
}

// An expired cookie, a session cookie, and two persistent ones.
func TestSaveAndLoad(t *testing.T) {
	jar := newJar(t, nil)
	parseAll(t, jar, "https://example.com/foo/bar", "expired=0; Max-Age=1")
	setClock(jar, time.Now())
	parseAll(t, jar, "https://example.com/foo/bar", "session=2", "a=1; Secure; HttpOnly"+expires2099,
		`b="x, y"; Domain=example.com; Path=/`+expires2099)
	all := []Cookie{
		{"example.com", "/foo", "expired", "0", start.Add(time.Second), true, false, false, 0},
		{"example.com", "/foo", "session", "2", time.Time{}, true, false, false, 0},
		{"example.com", "/foo", "a", "1", endOf2099, true, true, true, 0},
		{"example.com", "/", "b", `"x, y"`, endOf2099, false, false, false, 0},
	}
	for name, format := range map[string]Format{"JSON": JSON, "RON": RON, "Netscape": Netscape} {
		for _, row := range []struct {
			saved, loaded Which
			want          []Cookie
		}{
			{AllCookies, AllCookies, all},
			{UnexpiredCookies, AllCookies, all[1:]},
			{PersistentCookies, AllCookies, all[2:]},
			{AllCookies, UnexpiredCookies, all[1:]},
			{AllCookies, PersistentCookies, all[2:]},
		} {
			var list strings.Builder
			if err := jar.Save(&list, format, row.saved); err != nil {
				t.Fatalf("%s: Save(%d): %v", name, row.saved, err)
			}
			loaded, err := Load(strings.NewReader(list.String()), format, row.loaded, nil)
			if err != nil {
				t.Fatalf("%s: Load(%q, %d): %v", name, list.String(), row.loaded, err)
			}
			expectAll(t, fmt.Sprintf("%s, saved %d, loaded %d", name, row.saved, row.loaded), loaded, row.want)
			loaded.Close()
		}
	}
}

// Files of other programs: curl's, and Rust's crate cookie_store's.
func TestLoad(t *testing.T) {
	want := []Cookie{{"example.com", "/foo", "a", "1", endOf2099, false, true, true, 0}}
	for _, row := range []struct {
		format Format
		list   string
	}{
		{Netscape, "# Netscape HTTP Cookie File\n\n#HttpOnly_.example.com\tTRUE\t/foo\tTRUE\t4102444799\ta\t1\n"},
		{JSON, `[{"raw_cookie": "a=1; Path=/foo; Secure; HttpOnly", "path": ["/foo", true],
			"domain": {"Suffix": "example.com"}, "expires": {"AtUtc": "2099-12-31T23:59:59Z"}}]`},
	} {
		jar := loadedJar(t, row.list, row.format)
		expectAll(t, row.list, jar, want)
		expectHeader(t, jar, "https://deep.example.com/foo/", "a=1")
	}
}

func TestLoadErrors(t *testing.T) {
	for _, row := range []struct {
		format Format
		list   string
		want   Error
	}{
		{JSON, "[", Error{ErrBadJSON, 0}},
		{JSON, "{}", Error{ErrBadShape, 0}},
		{JSON, "", Error{ErrBadJSON, 0}},
		{JSON, "\xff", Error{ErrNotUTF8, 0}},
		{JSON, `[{"raw_cookie": "a", "path": ["/", true], "domain": {"Suffix": "a.com"}, "expires": "SessionEnd"}]`,
			Error{ErrParse, 0}},
		{RON, "[", Error{ErrBadRON, 0}},
		{Netscape, "# comment\nexample.com\n", Error{ErrBadLine, 2}},
	} {
		_, err := Load(strings.NewReader(row.list), row.format, AllCookies, nil)
		var typed *Error
		if !errors.As(err, &typed) || *typed != row.want {
			t.Errorf("Load(%q): %v, want %v", row.list, err, &row.want)
		}
	}
	_, err := Load(strings.NewReader("[]"), JSON, AllCookies, &Options{DomainLimit: -1})
	expectStatus(t, "Load with a negative limit", err, ErrBadLimit)
	if _, err := Load(iotest.ErrReader(io.ErrClosedPipe), JSON, AllCookies, nil); err != io.ErrClosedPipe {
		t.Errorf("Load from a closed pipe: %v", err)
	}
}

// loadable returns a cookie of example.com and its line of a cookies.txt file.
func loadable(name, value string, expires time.Time) (Cookie, string) {
	seconds := int64(0)
	if !expires.IsZero() {
		seconds = expires.Unix()
	}
	return Cookie{"example.com", "/", name, value, expires, true, false, false, 0},
		fmt.Sprintf("example.com\tFALSE\t/\tFALSE\t%d\t%s\t%s\n", seconds, name, value)
}

func TestLoadLenient(t *testing.T) {
	session, sessionLine := loadable("session", "1", time.Time{})
	expired, expiredLine := loadable("expired", "2", start)
	lasting, lastingLine := loadable("lasting", "3", endOf2099)
	file := "# comment\nexample.com\n" + sessionLine + "b=2\n" + expiredLine + lastingLine
	for _, row := range []struct {
		file      string
		which     Which
		want      []Cookie
		malformed []int
	}{
		{file, AllCookies, []Cookie{session, expired, lasting}, []int{2, 4}},
		{file, UnexpiredCookies, []Cookie{session, lasting}, []int{2, 4}},
		{file, PersistentCookies, []Cookie{lasting}, []int{2, 4}},
		{sessionLine, UnexpiredCookies, []Cookie{session}, nil},
		{"", AllCookies, nil, nil},
		{"b=2", AllCookies, nil, []int{1}},
	} {
		jar, malformed, err := LoadLenient(strings.NewReader(row.file), row.which, &Options{DomainLimit: 2})
		if err != nil || !reflect.DeepEqual(malformed, row.malformed) {
			t.Fatalf("LoadLenient(%q, %d): %v, %v, want %v", row.file, row.which, malformed, err, row.malformed)
		}
		expectAll(t, fmt.Sprintf("LoadLenient(%q, %d)", row.file, row.which), jar, row.want)
		jar.Close()
	}
	_, _, err := LoadLenient(strings.NewReader("\xff"), AllCookies, nil)
	expectStatus(t, "LoadLenient", err, ErrNotUTF8)
	_, _, err = LoadLenient(strings.NewReader("b=2"), AllCookies, &Options{DomainLimit: -1})
	expectStatus(t, "LoadLenient with a negative limit", err, ErrBadLimit)
	if _, _, err := LoadLenient(iotest.ErrReader(io.ErrClosedPipe), AllCookies, nil); err != io.ErrClosedPipe {
		t.Errorf("LoadLenient from a closed pipe: %v", err)
	}
}

// A jar of which a cookies.txt file can represent all cookies but one, which has a TAB in its value.
func TestSaveLenient(t *testing.T) {
	jar := newJar(t, nil)
	parseAll(t, jar, "http://example.com/", "expired=0; Max-Age=1")
	setClock(jar, time.Now())
	parseAll(t, jar, "http://example.com/", "session=1", "tab=x\ty", "other=2", "lasting=3"+expires2099)
	all := []Cookie{
		{"example.com", "/", "expired", "0", start.Add(time.Second), true, false, false, 0},
		{"example.com", "/", "session", "1", time.Time{}, true, false, false, 0},
		{"example.com", "/", "other", "2", time.Time{}, true, false, false, 0},
		{"example.com", "/", "lasting", "3", endOf2099, true, false, false, 0},
	}
	for _, row := range []struct {
		which   Which
		want    []Cookie
		leftOut int
	}{
		{AllCookies, all, 1},
		{UnexpiredCookies, all[1:], 1},
		{PersistentCookies, all[3:], 0},
	} {
		var file strings.Builder
		leftOut, err := jar.SaveLenient(&file, row.which)
		if err != nil || leftOut != row.leftOut {
			t.Errorf("SaveLenient(%d): %d, %v, want %d", row.which, leftOut, err, row.leftOut)
		}
		expectAll(t, fmt.Sprintf("SaveLenient(%d)", row.which), loadedJar(t, file.String(), Netscape), row.want)
	}
	reader, writer := io.Pipe()
	reader.Close()
	if _, err := jar.SaveLenient(writer, AllCookies); err != io.ErrClosedPipe {
		t.Errorf("SaveLenient to a closed pipe: %v", err)
	}
	jar.Close()
	_, err := jar.SaveLenient(io.Discard, AllCookies)
	expectStatus(t, "SaveLenient of a closed jar", err, ErrClosed)
}

// A list is longer than its first buffer if most of its characters are escaped.
func TestSaveOfEscapedCharacters(t *testing.T) {
	jar := newJar(t, nil)
	value := strings.Repeat("\x01", 10000)
	parseAll(t, jar, "http://example.com/", "a="+value)
	for name, format := range map[string]Format{"JSON": JSON, "RON": RON} {
		var list strings.Builder
		if err := jar.Save(&list, format, AllCookies); err != nil {
			t.Fatalf("%s: Save: %v", name, err)
		}
		want := []Cookie{{Domain: "example.com", Path: "/", Name: "a", Value: value, HostOnly: true}}
		expectAll(t, name, loadedJar(t, list.String(), format), want)
	}
}

func TestSaveErrors(t *testing.T) {
	jar := newJar(t, nil)
	parseAll(t, jar, "http://example.com/", "a=\x01"+expires2099)
	expectStatus(t, "Save", jar.Save(io.Discard, Netscape, PersistentCookies), ErrUnrepresentable)
	reader, writer := io.Pipe()
	reader.Close()
	if err := jar.Save(writer, JSON, AllCookies); err != io.ErrClosedPipe {
		t.Errorf("Save to a closed pipe: %v", err)
	}
}

// Numbers of no constant: 3 is another format in cookie_store.h, and the last two are 0 in their low 32 bits.
func TestBadOptions(t *testing.T) {
	jar := newJar(t, nil)
	for _, number := range []int{-1, 3, 1 << 32, -1 << 32} {
		format, which := Format(number), Which(number)
		_, loadFormat := Load(strings.NewReader("[]"), format, AllCookies, nil)
		_, loadWhich := Load(strings.NewReader("[]"), JSON, which, nil)
		_, _, loadLenient := LoadLenient(strings.NewReader(""), which, nil)
		_, saveLenient := jar.SaveLenient(io.Discard, which)
		for call, err := range map[string]error{
			"Load, format": loadFormat, "Load, which": loadWhich, "LoadLenient": loadLenient,
			"Save, format": jar.Save(io.Discard, format, AllCookies), "Save, which": jar.Save(io.Discard, JSON, which),
			"SaveLenient": saveLenient,
		} {
			expectStatus(t, fmt.Sprintf("%s %d", call, number), err, ErrBadOption)
		}
	}
}
