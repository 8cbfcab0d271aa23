package cookiestore

// #include <cookie_store.h>
import "C"

import (
	"bytes"
	"io"
	"math"
	"unsafe"
)

// Format is a format of saved cookies.
type Format int

const (
	JSON     Format = C.COOKIE_STORE_JSON     // a list in JSON
	RON      Format = C.COOKIE_STORE_RON      // the same list in RON, Rusty Object Notation
	Netscape Format = C.COOKIE_STORE_NETSCAPE // a cookies.txt file, as curl and wget read and write it; it has no SameSite
)

// Which is a choice of the cookies to save or to load. A login is usually a session cookie.
type Which int

const (
	AllCookies        Which = C.COOKIE_STORE_ALL        // all cookies
	UnexpiredCookies  Which = C.COOKIE_STORE_UNEXPIRED  // those that have not expired, session cookies included
	PersistentCookies Which = C.COOKIE_STORE_PERSISTENT // the persistent ones of these
)

// Save writes cookies. In JSON and RON a cookie that was received with SameSite=None and without Secure is Secure after Load.
//
// Errors: ErrBadOption, ErrBadExpiry (JSON and RON), ErrUnrepresentable (Netscape), and those of w.
func (j *Jar) Save(w io.Writer, format Format, which Which) error {
	_, err := j.save(w, number(format, Netscape), number(which, PersistentCookies))
	return err
}

// SaveLenient writes cookies as a cookies.txt file, without those that the format cannot represent, and returns how many are left
// out.
//
// Errors: ErrBadOption, and those of w.
func (j *Jar) SaveLenient(w io.Writer, which Which) (leftOut int, err error) {
	return j.save(w, C.COOKIE_STORE_NETSCAPE_LENIENT, number(which, PersistentCookies))
}

func (j *Jar) save(w io.Writer, format, which C.uint32_t) (leftOut int, err error) {
	list, leftOut, err := j.list(format, which)
	if err != nil {
		return 0, err
	}
	_, err = w.Write(list)
	return leftOut, err
}

// list returns the lists of all shards as one.
func (j *Jar) list(format, which C.uint32_t) (list []byte, leftOut int, err error) {
	j.lock()
	defer j.unlock()
	var lists [][]byte
	now := j.seconds()
	err = j.each(func(s *shard) error {
		list, count, err := s.list(format, which, now)
		lists, leftOut = append(lists, list), leftOut+count
		return err
	})
	if err != nil {
		return nil, 0, err
	}
	return joined(format, lists), leftOut, nil
}

// list returns the cookies in a format. The shard must be locked.
func (s *shard) list(format, which C.uint32_t, now C.int64_t) ([]byte, int, error) {
	list, leftOut := make([]byte, s.room(format)), C.size_t(0)
	for {
		status := C.cookie_store_save(&s.store, C.enum_cookie_store_format(format), C.enum_cookie_store_which(which), now,
			(*C.char)(unsafe.Pointer(&list[0])), C.size_t(len(list)), &s.needed, &leftOut)
		if status != C.COOKIE_STORE_NO_ROOM {
			return list[:s.needed], int(leftOut), errorOf(status, 0)
		}
		list = make([]byte, s.needed)
	}
}

// room returns the length of a buffer for the stored cookies. With many escaped characters they may take more: then they are
// written twice.
func (s *shard) room(format C.uint32_t) C.size_t {
	count, length := s.writeRows(make([]C.cookie_store_row, 1), make([]byte, 1))
	if format == C.COOKIE_STORE_JSON || format == C.COOKIE_STORE_RON {
		return 4096 + 2*length + 512*count // at most twice the strings of a cookie, and 512 other bytes
	}
	return 4096 + length + 40*count
}

// joined returns lists in a format, as the library writes them, as one list: in JSON and RON without the brackets between them, in
// cookies.txt without their first lines but one.
func joined(format C.uint32_t, lists [][]byte) []byte {
	if len(lists) == 1 {
		return lists[0]
	}
	begin, separator, end := "[", ",", "\n]\n"
	switch format {
	case C.COOKIE_STORE_RON:
		separator = ""
	case C.COOKIE_STORE_NETSCAPE, C.COOKIE_STORE_NETSCAPE_LENIENT:
		begin, separator, end = "# Netscape HTTP Cookie File\n", "", ""
	}
	var parts [][]byte
	for _, list := range lists {
		if len(list) > len(begin)+len(end) {
			parts = append(parts, list[len(begin):len(list)-len(end)])
		}
	}
	if len(parts) == 0 {
		return lists[0]
	}
	return append(append([]byte(begin), bytes.Join(parts, []byte(separator))...), end...)
}

// Load returns a jar with cookies of r. Nil options are those of a zero Options. No option but Shards applies to the loaded cookies:
// their domains are not checked.
//
// Errors: ErrBadOption; ErrNotUTF8; of JSON ErrBadJSON, ErrBadShape, ErrBadExpiry and ErrParse; of RON ErrBadRON, ErrBadExpiry
// and ErrParse; of Netscape ErrBadLine with its line; those of r and of New.
func Load(r io.Reader, format Format, which Which, options *Options) (*Jar, error) {
	jar, _, err := load(r, number(format, Netscape), number(which, PersistentCookies), options)
	return jar, err
}

// LoadLenient returns a jar with cookies of a cookies.txt file, as Load does, without the malformed lines, and the numbers of
// these, counted from 1.
//
// Errors: ErrBadOption, ErrNotUTF8, those of r and of New.
func LoadLenient(r io.Reader, which Which, options *Options) (jar *Jar, malformed []int, err error) {
	return load(r, C.COOKIE_STORE_NETSCAPE_LENIENT, number(which, PersistentCookies), options)
}

func load(r io.Reader, format, which C.uint32_t, options *Options) (jar *Jar, malformed []int, err error) {
	read, err := io.ReadAll(r)
	if err != nil {
		return nil, nil, err
	}
	list, lines, count := view(read), make([]C.size_t, bytes.Count(read, []byte("\n"))+1), C.size_t(0)
	jar, err = create(options, func(jar *Jar, key string) error {
		status := C.cookie_store_load(&jar.first.store, chars(key), size(key), C.enum_cookie_store_format(format),
			C.enum_cookie_store_which(which), chars(list), size(list), jar.seconds(), &lines[0], C.size_t(len(lines)), &count)
		return errorOf(status, lines[0])
	})
	if err != nil {
		return nil, nil, err
	}
	for _, line := range lines[:count] {
		malformed = append(malformed, int(line))
	}
	return jar, malformed, nil
}

// number returns the number of an option in cookie_store.h, or, if the option is none of 0 to last, one that the library rejects.
func number[Option Format | Which](option, last Option) C.uint32_t {
	if option < 0 || option > last {
		return math.MaxUint32
	}
	return C.uint32_t(option)
}
