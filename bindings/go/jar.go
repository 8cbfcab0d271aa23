package cookiestore

// #cgo pkg-config: cookie_store
// #include <cookie_store.h>
//
// // The calls of each request take a handle as bytes: cgo would look for Go pointers in another one each time.
// static enum cookie_store_status parse(char *store, const char *url, size_t url_len, const char *value, size_t value_len,
// 	int64_t now) {
// 	return cookie_store_parse((cookie_store *)store, url, url_len, value, value_len, now);
// }
//
// static enum cookie_store_status header(char *store, const char *url, size_t url_len, int64_t now, char *out, size_t out_len,
// 	size_t *needed) {
// 	return cookie_store_header((cookie_store *)store, url, url_len, now, out, out_len, needed);
// }
import "C"

import (
	"crypto/rand"
	"net/url"
	"os"
	"runtime"
	"strings"
	"sync/atomic"
	"time"
	"unsafe"
)

// Jar is a http.CookieJar over a store of the C library. Goroutines may share it. It must not be copied.
//
// Create one with New or Load; the zero value is a closed jar. Errors of the store are of type *Error. After Close their status
// is ErrClosed.
type Jar struct {
	first     shard
	others    []*shard                           // none, unless the jar is split
	hosts     atomic.Pointer[hosts]              // nil, unless the jar is split
	now       func() time.Time                   // the clock of a test, or nil
	onDropped func(host, name string, err error) // or nil
}

// Options are the options of a jar.
type Options struct {
	// PublicSuffixList is the content of a list in the format of publicsuffix.org, such as SystemPublicSuffixList returns. A
	// cookie for a public suffix, such as all of co.uk, is rejected, unless it comes from that very host. If it is nil there
	// is no list, and a server may set a cookie for all of co.uk. A list without rules is an error, and so is an empty one.
	//
	// A line has one rule, such as co.uk, *.ck or !www.ck, and what follows white space is ignored. Lines without a rule and
	// lines that begin with // are skipped. A line is malformed if its rule has an empty label or one of the characters
	// / < { " : @ =, so that a path with a slash, an HTML page or a JSON document is an error.
	PublicSuffixList []byte

	// OnlyListed is whether only the domains that a rule of the list matches are public suffixes. Otherwise the rule * is
	// added, as publicsuffix.org specifies, and a top-level domain without a rule of its own is a public suffix too.
	OnlyListed bool

	// DomainLimit is how many cookies each domain may have, or 0 for no limit. Before a cookie is inserted, cookies of its
	// domain are evicted until it fits: first the expired ones, then the others, both in creation order. A strict jar evicts
	// Secure cookies that have not expired last.
	DomainLimit int

	// Strict is whether the jar rejects more cookies, as browsers do (draft-ietf-httpbis-rfc6265bis). It then also ignores
	// attributes whose value is longer than 1,024 bytes, and a cookie expires at most 400 days after it was received. With a
	// public suffix list, the Domain of a cookie may not be above the site of the host that sets it.
	Strict bool

	// Shards is how many stores the jar is split into, each with a lock of its own: a call for a URL waits only for calls of the
	// same shard. The shard of a URL is that of its root (see Jar.Root). 0 stands for one store, and more than one need Strict and
	// PublicSuffixList, since only then a cookie stays within its root. Each shard has a copy of the list, which takes 2 MB for
	// that of publicsuffix.org. All and Save have the shards one after the other, and each one in the order of its store.
	Shards int

	// OnDropped, if it is not nil, is called for each cookie that SetCookies does not store, with the error that Parse would
	// have returned, and for each stored cookie that Cookies and Header leave out, with ErrControlCharacter. If Cookies
	// returns nil because of an error, it is called with that error and an empty name.
	//
	// It gets the host of the URL, with the port if it has one, and the name of the cookie, but never a value. Both are as
	// received: print them with %q. A server that expires a cookie which is not stored is the harmless ErrExpired.
	//
	// Several goroutines may call it at once. The jar is not locked meanwhile, so that it may use the jar; but a jar to which
	// it refers is freed by Close alone.
	OnDropped func(host, name string, err error)
}

// publicSuffixFile is where Debian's package publicsuffix installs the list.
const publicSuffixFile = "/usr/share/publicsuffix/public_suffix_list.dat"

// SystemPublicSuffixList returns the content of /usr/share/publicsuffix/public_suffix_list.dat, which Debian's package publicsuffix
// installs. For another file use os.ReadFile.
func SystemPublicSuffixList() ([]byte, error) { return os.ReadFile(publicSuffixFile) }

// New returns a jar without cookies. Nil options are those of a zero Options.
//
// Errors: ErrNotUTF8 (the list), ErrBadRule with its line, ErrNoRules, ErrBadLimit (DomainLimit, Shards), ErrBadOption (Shards of a
// jar that is not strict or has no list).
func New(options *Options) (*Jar, error) {
	return create(options, func(jar *Jar, key string) error {
		return errorOf(C.cookie_store_new(&jar.first.store, chars(key), size(key)), 0)
	})
}

// create returns a jar with these options, whose store begin creates with a random hash key.
func create(options *Options, begin func(jar *Jar, key string) error) (*Jar, error) {
	key := make([]byte, 16)
	if _, err := rand.Read(key); err != nil {
		return nil, err
	}
	jar := &Jar{}
	if err := begin(jar, string(key)); err != nil {
		return nil, err
	}
	runtime.SetFinalizer(jar, (*Jar).Close)
	if options == nil {
		return jar, nil
	}
	if err := jar.configure(options); err != nil {
		jar.Close()
		return nil, err
	}
	return jar, nil
}

func (j *Jar) configure(options *Options) error {
	j.onDropped = options.OnDropped
	if options.DomainLimit < 0 || options.Shards < 0 {
		return &Error{Status: ErrBadLimit}
	}
	if options.Shards > 1 && !(options.Strict && options.PublicSuffixList != nil) {
		return &Error{Status: ErrBadOption}
	}
	s := &j.first
	if options.PublicSuffixList != nil {
		list, line := view(options.PublicSuffixList), C.size_t(0)
		status := C.cookie_store_set_suffix_list(&s.store, chars(list), size(list), C.bool(options.OnlyListed), &line)
		if err := errorOf(status, line); err != nil {
			return err
		}
	}
	if options.DomainLimit > 0 {
		if err := errorOf(C.cookie_store_set_domain_limit(&s.store, C.size_t(options.DomainLimit)), 0); err != nil {
			return err
		}
	}
	if err := errorOf(C.cookie_store_set_strict(&s.store, C.bool(options.Strict)), 0); err != nil {
		return err
	}
	return j.split(options.Shards)
}

// Close frees the store and returns nil. It may be called again. A finalizer closes a jar that is garbage.
func (j *Jar) Close() error {
	j.lock()
	defer j.unlock()
	return j.each(func(s *shard) error {
		C.cookie_store_free(&s.store)
		return nil
	})
}

// Parse parses a Set-Cookie header value received from u and inserts the cookie, RFC 6265 5.3. The status of the error is the
// reason if the cookie was rejected (see Status.IsRejection), or else ErrBadURL or ErrNotUTF8.
func (j *Jar) Parse(u *url.URL, setCookie string) error {
	s := j.shardOf(u)
	s.mu.Lock()
	defer s.mu.Unlock()
	return errorOf(s.parse(s.address(u), setCookie, j.seconds()), 0)
}

// parse is Parse while the shard is locked, and returns a status.
func (s *shard) parse(url, setCookie string, now C.int64_t) C.enum_cookie_store_status {
	return C.parse(s.handle(), chars(url), size(url), chars(setCookie), size(setCookie), now)
}

// Header returns the value of the Cookie header of a request for u, RFC 6265 5.4, or "" if none is to be sent. Names and values
// are as received. Longer paths come first, and cookies with paths of equal length in creation order.
//
// Cookies whose name or value has a control character other than HTAB are left out: such a header could end early and begin
// another one. They can come from Load, and from Parse with another string than a header that net/http received.
//
// Errors: ErrBadURL, ErrNotUTF8 (the URL).
func (j *Jar) Header(u *url.URL) (string, error) {
	header, err := j.readHeader(u)
	if err != nil {
		return "", err
	}
	return j.withoutControls(u, header), nil
}

// withoutControls returns the header of a request for u without the pairs that are not sent.
func (j *Jar) withoutControls(u *url.URL, header string) string {
	if !hasControl(header) {
		return header
	}
	var sent []string
	for _, pair := range strings.Split(header, pairSeparator) {
		if j.isSent(u, pair) {
			sent = append(sent, pair)
		}
	}
	return strings.Join(sent, pairSeparator)
}

// pairSeparator separates the pairs of a header. No name and no value has a semicolon.
const pairSeparator = "; "

// isSent reports whether a pair name=value of a header is sent, and passes one that is not to Options.OnDropped.
func (j *Jar) isSent(u *url.URL, pair string) bool {
	if !hasControl(pair) {
		return true
	}
	name, _, _ := strings.Cut(pair, "=")
	j.dropped(u, name, &Error{Status: ErrControlCharacter})
	return false
}

func hasControl(s string) bool {
	for i := 0; i < len(s); i++ {
		if c := s[i]; c < ' ' && c != '\t' || c == 0x7f {
			return true
		}
	}
	return false
}

// readHeader returns the header as the library writes it.
func (j *Jar) readHeader(u *url.URL) (string, error) {
	s := j.shardOf(u)
	return s.read(u, j.seconds(), func(url string, now C.int64_t, out *C.char, room C.size_t) C.enum_cookie_store_status {
		return C.header(s.handle(), chars(url), size(url), now, out, room, &s.needed)
	})
}

// read returns the header of a request for u that write writes.
func (s *shard) read(u *url.URL, now C.int64_t, write func(url string, now C.int64_t, out *C.char, room C.size_t) C.enum_cookie_store_status) (string, error) {
	s.mu.Lock()
	defer s.mu.Unlock()
	url := s.address(u)
	if s.header == nil {
		s.header = make([]byte, 1024)
	}
	for {
		status := write(url, now, (*C.char)(unsafe.Pointer(&s.header[0])), C.size_t(len(s.header)))
		if status != C.COOKIE_STORE_NO_ROOM {
			return string(s.header[:s.needed]), errorOf(status, 0)
		}
		s.header = make([]byte, s.needed)
	}
}

// dropped calls Options.OnDropped. The lock must not be held.
func (j *Jar) dropped(u *url.URL, name string, err error) {
	if j.onDropped == nil {
		return
	}
	host := ""
	if u != nil {
		host = u.Host
	}
	j.onDropped(host, name, err)
}

// Merge inserts the cookies of another jar, each as if its own domain had sent it, and returns how many are left out: those that
// Parse would reject, and those whose domain is not the host of a URL. A domain cookie of a public suffix becomes host-only, and
// an expired one expires the stored one. The other jar is unchanged, and so is one that is merged into itself.
//
// To add the cookies of a file to a jar, Load them into a jar of their own, and Merge that.
//
// Errors: ErrNoMemory, after some cookies were inserted.
func (j *Jar) Merge(other *Jar) (leftOut int, err error) {
	if other == j {
		return 0, nil
	}
	first, second := j, other
	if uintptr(unsafe.Pointer(second)) < uintptr(unsafe.Pointer(first)) { // one order for all, so that no call waits for another
		first, second = second, first
	}
	first.lock()
	defer first.unlock()
	second.lock()
	defer second.unlock()
	now := j.seconds()
	err = j.each(func(s *shard) error {
		return other.each(func(from *shard) error {
			count, err := j.merge(s, from, now)
			leftOut += count
			return err
		})
	})
	return leftOut, err
}

// Clear removes all cookies.
func (j *Jar) Clear() error {
	j.lock()
	defer j.unlock()
	return j.each(func(s *shard) error { return errorOf(C.cookie_store_clear(&s.store), 0) })
}

// Remove removes the cookie with this domain, path and name, as All returns them.
//
// Errors: ErrNotUTF8, ErrNotFound.
func (j *Jar) Remove(domain, path, name string) error {
	s := j.lockDomain(domain)
	defer s.mu.Unlock()
	status := C.cookie_store_remove(&s.store, chars(domain), size(domain), chars(path), size(path), chars(name), size(name))
	return errorOf(status, 0)
}

// RemoveDomain removes the cookies of this domain, host-only cookies and domain cookies, and returns their number. The domain
// is as All returns it.
//
// Errors: ErrNotUTF8.
func (j *Jar) RemoveDomain(domain string) (int, error) {
	s := j.lockDomain(domain)
	defer s.mu.Unlock()
	var removed C.size_t
	err := errorOf(C.cookie_store_remove_domain(&s.store, chars(domain), size(domain), &removed), 0)
	return int(removed), err
}

// RemoveExpired removes the expired cookies and returns their number. They are never sent, but take memory until they are
// removed.
func (j *Jar) RemoveExpired() (int, error) {
	j.lock()
	defer j.unlock()
	total, now := 0, j.seconds()
	err := j.each(func(s *shard) error {
		var removed C.size_t
		err := errorOf(C.cookie_store_remove_expired(&s.store, now, &removed), 0)
		total += int(removed)
		return err
	})
	return total, err
}

// seconds returns the current time as the library takes it.
func (j *Jar) seconds() C.int64_t {
	now := time.Now
	if j.now != nil {
		now = j.now
	}
	return C.int64_t(now().Unix())
}

// chars returns a pointer to the bytes of s, for the time of a call. The library takes no pointer that is NULL.
func chars(s string) *C.char {
	if s == "" {
		s = "\x00"
	}
	return *(**C.char)(unsafe.Pointer(&s)) // the first word of a string
}

func size(s string) C.size_t { return C.size_t(len(s)) }

// view returns the bytes as a string without a copy. They must not change while it is used.
func view(b []byte) string { return *(*string)(unsafe.Pointer(&b)) }
