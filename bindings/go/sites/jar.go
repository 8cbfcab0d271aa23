package sites

import (
	"context"
	"crypto/rand"
	"math/big"
	"net/http"
	"net/url"
	"sync"
	"time"

	"pulleymaroon/cookiestore"
)

// Jar is a http.CookieJar over values. It does what a strict cookiestore.Jar with a public suffix list does, from which the expired
// cookies are removed before each call. Goroutines may share it, and so may processes that have the same values and options. Their
// clocks should agree.
//
// Each call happens at once, before or after the calls of others. Its errors, in the order in which they are checked:
//
//   - ErrClosed, ErrBadURL and ErrNotUTF8 of package cookiestore, if it takes a URL or a domain
//   - the error of the context
//   - those of Values.Get
//   - *BadListError
//   - those of the call of this name of a cookiestore.Jar, such as the reason why a cookie was rejected
//   - those of Values.Swap; the call may have happened or not
//   - *ConflictError, or the error of the context before another attempt
type Jar struct {
	values  Values
	options Options
	rules   *rules
	ctx     context.Context // of SetCookies and Cookies
}

var _ http.CookieJar = (*Jar)(nil)

// Options are the options of a jar.
type Options struct {
	// PublicSuffixList is the content of a list, as that of cookiestore.Options. nil stands for the list of the system, see
	// cookiestore.SystemPublicSuffixList. After a change of the list, cookies of hosts that got another root are not found.
	PublicSuffixList []byte

	// OnlyListed and DomainLimit are those of cookiestore.Options.
	OnlyListed  bool
	DomainLimit int

	// Attempts is how often a call tries to write a list that others write, or 0 for 100.
	Attempts int

	// OnDropped is called as that of cookiestore.Options, also with the errors of values.
	OnDropped func(host, name string, err error)
}

// rules is an empty jar with the public suffix list, which one call uses at a time.
type rules struct {
	mu  sync.Mutex
	jar *cookiestore.Jar
}

// accept inserts a cookie, and returns it, or nil if it is rejected, and the error. The jar is empty again.
func (r *rules) accept(insert func(jar *cookiestore.Jar) error) (accepted *cookiestore.Cookie, err error) {
	r.mu.Lock()
	defer r.mu.Unlock()
	err = insert(r.jar)
	if cookies := r.jar.All(); len(cookies) > 0 {
		accepted = &cookies[0]
	}
	if clearErr := r.jar.Clear(); err == nil {
		err = clearErr
	}
	return accepted, err
}

// New returns a jar over values. Nil options are those of a zero Options.
//
// Errors are those of cookiestore.SystemPublicSuffixList and of cookiestore.New.
func New(values Values, options *Options) (*Jar, error) {
	j := &Jar{values: values, ctx: context.Background()}
	if options != nil {
		j.options = *options
	}
	if j.options.Attempts <= 0 {
		j.options.Attempts = 100
	}
	list := j.options.PublicSuffixList
	if list == nil {
		var err error
		if list, err = cookiestore.SystemPublicSuffixList(); err != nil {
			return nil, err
		}
	}
	jar, err := cookiestore.New(&cookiestore.Options{
		PublicSuffixList: list, OnlyListed: j.options.OnlyListed, DomainLimit: j.options.DomainLimit, Strict: true,
	})
	if err != nil {
		return nil, err
	}
	j.options.PublicSuffixList, j.rules = nil, &rules{jar: jar}
	return j, nil
}

// Close frees the public suffix list and returns nil. The values stay. A finalizer closes a jar that is garbage.
func (j *Jar) Close() error { return j.rules.jar.Close() }

// WithContext returns the same jar, whose SetCookies and Cookies use a context: for the http.Client of one request. Close closes
// both.
func (j *Jar) WithContext(ctx context.Context) *Jar {
	with := *j
	with.ctx = ctx
	return &with
}

// SetCookies inserts the cookies of a response from u, by one write. It drops those for which Parse would return an error, and
// passes each to Options.OnDropped.
func (j *Jar) SetCookies(u *url.URL, cookies []*http.Cookie) {
	values := make([]string, len(cookies))
	for i, cookie := range cookies {
		values[i] = cookiestore.SetCookieValue(cookie)
	}
	errs, err := j.Receive(j.ctx, u, values)
	for i, cookie := range cookies {
		if err != nil {
			j.dropped(u, cookie.Name, err)
		} else if errs[i] != nil {
			j.dropped(u, cookie.Name, errs[i])
		}
	}
}

// Cookies returns the names and values of the cookies of a request for u, as cookiestore.Jar.Cookies does. It returns nil if
// there are none, and on an error, which it passes to Options.OnDropped.
func (j *Jar) Cookies(u *url.URL) []*http.Cookie {
	s, err := j.siteOf(j.ctx, u)
	if err != nil {
		j.dropped(u, "", err)
		return nil
	}
	defer s.jar.Close()
	return s.jar.Cookies(u)
}

func (j *Jar) dropped(u *url.URL, name string, err error) {
	if j.options.OnDropped == nil {
		return
	}
	host := ""
	if u != nil {
		host = u.Host
	}
	j.options.OnDropped(host, name, err)
}

// change reads the cookies of a root, changes them and writes them, until no other wrote them in between. An error of the function
// is returned, and then nothing is written.
func (j *Jar) change(ctx context.Context, root string, change func(s *site) error) error {
	return j.try(ctx, root, func() (done bool, err error) {
		s, err := j.read(ctx, root)
		if err != nil {
			return false, err
		}
		defer s.jar.Close()
		if err := change(s); err != nil || !s.changed {
			return true, err
		}
		list, err := s.list()
		if err != nil {
			return false, err
		}
		return j.values.Swap(ctx, root, s.value, list)
	})
}

// try makes attempts until one is done or returns an error.
func (j *Jar) try(ctx context.Context, root string, attempt func() (done bool, err error)) error {
	for i := 0; i < j.options.Attempts; i++ {
		if err := pause(ctx, i); err != nil {
			return err
		}
		if done, err := attempt(); done || err != nil {
			return err
		}
	}
	return &ConflictError{root, j.options.Attempts}
}

// pause waits for a random time after this many attempts: up to a millisecond for each of them, and up to 10.
func pause(ctx context.Context, attempts int) error {
	if attempts == 0 {
		return ctx.Err()
	}
	if attempts > 10 {
		attempts = 10
	}
	random, err := rand.Int(rand.Reader, big.NewInt(int64(attempts)*int64(time.Millisecond)))
	if err != nil {
		return err
	}
	timer := time.NewTimer(time.Duration(random.Int64()))
	defer timer.Stop()
	select {
	case <-timer.C:
		return nil
	case <-ctx.Done():
		return ctx.Err()
	}
}

// siteOf returns the cookies of the root of u that have not expired.
func (j *Jar) siteOf(ctx context.Context, u *url.URL) (*site, error) {
	root, err := j.rules.jar.Root(u)
	if err != nil {
		return nil, err
	}
	return j.read(ctx, root)
}

// read returns the cookies of a root that have not expired.
func (j *Jar) read(ctx context.Context, root string) (*site, error) {
	if err := ctx.Err(); err != nil {
		return nil, err
	}
	value, err := j.values.Get(ctx, root)
	if err != nil {
		return nil, err
	}
	return load(root, value, &j.options)
}
