package cookiestore

// #include <cookie_store.h>
import "C"

import (
	"net/url"
	"strings"
	"sync"
	"sync/atomic"
	"unsafe"
)

// shard is a store of a jar, with a lock and the buffers of its calls.
type shard struct {
	mu     sync.Mutex
	store  C.cookie_store
	url    []byte   // the URL of a call
	header []byte   // its Cookie header
	needed C.size_t // what it reports of its buffer

	response response // the header values of SetCookies
}

// handle returns the address of the handle, which has no pointer into Go's memory.
func (s *shard) handle() *C.char { return (*C.char)(unsafe.Pointer(&s.store)) }

// mostHosts is how many hosts a jar remembers the shards of.
const mostHosts = 1 << 14

// hosts are the shards of hosts that were found before, by the Host of an HTTP URL. A lookup takes no lock.
type hosts struct {
	shards sync.Map // of *shard
	count  int32
}

// shardOf returns the shard of the root of u, or any shard if u has no root. No shard may be locked.
func (j *Jar) shardOf(u *url.URL) *shard {
	if len(j.others) == 0 || u == nil {
		return &j.first
	}
	isHTTP := u.Scheme == "http" || u.Scheme == "https"
	if isHTTP {
		if found, ok := j.hosts.Load().shards.Load(u.Host); ok {
			return found.(*shard)
		}
	}
	root, err := j.Root(u)
	if err != nil {
		return &j.first
	}
	found := j.shardOfRoot(root)
	if isHTTP {
		j.remember(u.Host, found)
	}
	return found
}

// remember stores the shard of a host. If there are too many, the others are forgotten.
func (j *Jar) remember(host string, found *shard) {
	known := j.hosts.Load()
	if atomic.AddInt32(&known.count, 1) > mostHosts {
		known = &hosts{}
		j.hosts.Store(known)
	}
	known.shards.Store(strings.Clone(host), found) // a host may be a part of a long URL
}

func (j *Jar) shardOfRoot(root string) *shard {
	return j.shard(Shard(root, 1+len(j.others)))
}

// shard returns the shard of this number.
func (j *Jar) shard(number int) *shard {
	if number == 0 {
		return &j.first
	}
	return j.others[number-1]
}

// shardOfDomain returns the shard of the root of a cookie's domain, or any shard if it has none. The first shard must be locked if
// there are others.
func (j *Jar) shardOfDomain(domain string) *shard {
	if len(j.others) == 0 {
		return &j.first
	}
	root, err := j.rootOfDomain(domain)
	if err != nil {
		return &j.first
	}
	return j.shardOfRoot(root)
}

// lockDomain locks and returns the shard of a cookie's domain.
func (j *Jar) lockDomain(domain string) *shard {
	j.first.mu.Lock()
	found := j.shardOfDomain(domain)
	if found != &j.first {
		j.first.mu.Unlock()
		found.mu.Lock()
	}
	return found
}

// lock locks all shards, in their order, so that no call waits for another.
func (j *Jar) lock() {
	j.first.mu.Lock()
	for _, s := range j.others {
		s.mu.Lock()
	}
}

func (j *Jar) unlock() {
	j.first.mu.Unlock()
	for _, s := range j.others {
		s.mu.Unlock()
	}
}

// each calls a function for each shard, in their order, until it returns an error. The shards must be locked.
func (j *Jar) each(call func(s *shard) error) error {
	if err := call(&j.first); err != nil {
		return err
	}
	for _, s := range j.others {
		if err := call(s); err != nil {
			return err
		}
	}
	return nil
}

// split splits the only store of a jar into this many shards: each gets the cookies of its roots.
func (j *Jar) split(shards int) error {
	for i := 1; i < shards; i++ {
		s := &shard{}
		if err := errorOf(C.cookie_store_clone(&j.first.store, &s.store), 0); err != nil {
			return err
		}
		j.others = append(j.others, s)
	}
	if shards > 1 {
		j.hosts.Store(&hosts{})
	}
	domains := j.first.domains()
	return j.each(func(s *shard) error {
		return s.keep(domains, func(domain string) bool { return j.shardOfDomain(domain) == s })
	})
}

// keep removes the cookies of those of the domains that are not kept.
func (s *shard) keep(domains []string, isKept func(domain string) bool) error {
	var removed C.size_t
	for _, domain := range domains {
		if isKept(domain) {
			continue
		}
		if err := errorOf(C.cookie_store_remove_domain(&s.store, chars(domain), size(domain), &removed), 0); err != nil {
			return err
		}
	}
	return nil
}

// domains returns the domains of the cookies. The shard must be locked.
func (s *shard) domains() (domains []string) {
	rows, text := s.rows()
	for _, row := range rows {
		domain := takeFirst(&text, row.domain_len)
		takeFirst(&text, row.path_len+row.name_len+row.value_len)
		if len(domains) == 0 || domains[len(domains)-1] != domain {
			domains = append(domains, domain)
		}
	}
	return domains
}

// merge inserts the cookies of another store whose domains are of this shard of the jar, and returns how many are left out. Both
// must be locked.
func (j *Jar) merge(s *shard, from *shard, now C.int64_t) (leftOut int, err error) {
	var count C.size_t
	if len(j.others) == 0 {
		err := errorOf(C.cookie_store_merge(&s.store, &from.store, now, &count), 0)
		return int(count), err
	}
	part := shard{}
	if err := errorOf(C.cookie_store_clone(&from.store, &part.store), 0); err != nil {
		return 0, err
	}
	defer C.cookie_store_free(&part.store)
	if err := part.keep(part.domains(), func(domain string) bool { return j.shardOfDomain(domain) == s }); err != nil {
		return 0, err
	}
	err = errorOf(C.cookie_store_merge(&s.store, &part.store, now, &count), 0)
	return int(count), err
}

// Root returns the root of the host of u: its outermost site under the list of the jar. In a strict jar with a list, a cookie
// that a host sets is sent only to hosts of the same root.
//
// Mostly it is the registrable domain, such as example.co.uk for www.example.co.uk. But sites nest: *.kobe.jp is on the list of
// publicsuffix.org, so that a.b.kobe.jp is a site, whose root is kobe.jp.
//
// Errors: ErrNoList if the jar has no list, ErrBadURL, ErrNotUTF8 (the URL).
func (j *Jar) Root(u *url.URL) (string, error) {
	j.first.mu.Lock()
	defer j.first.mu.Unlock()
	return j.root(u)
}

// RootOfDomain returns the root of the domain of a cookie, as All returns it.
//
// Errors: ErrNoList, ErrNotUTF8.
func (j *Jar) RootOfDomain(domain string) (string, error) {
	j.first.mu.Lock()
	defer j.first.mu.Unlock()
	return j.rootOfDomain(domain)
}

// root is Root while the first shard is locked.
func (j *Jar) root(u *url.URL) (string, error) {
	s := &j.first
	url := s.address(u)
	return s.writeRoot(len(url), func(out *C.char, room C.size_t) C.enum_cookie_store_status {
		return C.cookie_store_root(&s.store, chars(url), size(url), out, room, &s.needed)
	})
}

// rootOfDomain is RootOfDomain while the first shard is locked.
func (j *Jar) rootOfDomain(domain string) (string, error) {
	s := &j.first
	return s.writeRoot(len(domain), func(out *C.char, room C.size_t) C.enum_cookie_store_status {
		return C.cookie_store_root_of_domain(&s.store, chars(domain), size(domain), out, room, &s.needed)
	})
}

// writeRoot returns the root that write writes to a buffer.
func (s *shard) writeRoot(length int, write func(out *C.char, room C.size_t) C.enum_cookie_store_status) (string, error) {
	out := make([]byte, length+1)
	for {
		status := write((*C.char)(unsafe.Pointer(&out[0])), C.size_t(len(out)))
		if status != C.COOKIE_STORE_NO_ROOM {
			return string(out[:s.needed]), errorOf(status, 0)
		}
		out = make([]byte, s.needed)
	}
}

// Shard returns the number of the shard of a root, from 0 to shards-1: the 64-bit FNV-1a hash of its bytes modulo shards. This
// never changes, so that the numbers may be saved. The hash has no key: a server can choose roots that fall into one shard.
//
// It panics if shards is less than 1.
func Shard(root string, shards int) int {
	if shards < 1 {
		panic("cookiestore: fewer than one shard")
	}
	hash := uint64(14695981039346656037)
	for i := 0; i < len(root); i++ {
		hash = (hash ^ uint64(root[i])) * 1099511628211
	}
	return int(hash % uint64(shards))
}
