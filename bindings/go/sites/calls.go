package sites

import (
	"context"
	"errors"
	"net/url"

	"pulleymaroon/cookiestore"
)

// Parse parses a Set-Cookie header value received from u and inserts the cookie, as cookiestore.Jar.Parse does.
func (j *Jar) Parse(ctx context.Context, u *url.URL, setCookie string) error {
	return first(j.Receive(ctx, u, []string{setCookie}))
}

// Receive parses the Set-Cookie header values of a response from u and inserts the cookies, by one write. It returns an error for
// each value, nil for one that Parse would return nil for; or, if nothing is written because of an error, that error alone.
func (j *Jar) Receive(ctx context.Context, u *url.URL, setCookies []string) ([]error, error) {
	return j.receive(ctx, u, setCookies, func(rules *cookiestore.Jar, value string) error { return rules.Parse(u, value) })
}

// ParseFor parses a Set-Cookie header value of the response to a request for u that a page made, and inserts the cookie, as
// cookiestore.Jar.ParseFor does.
func (j *Jar) ParseFor(ctx context.Context, u, page *url.URL, setCookie string, crossSite cookiestore.CrossSite) error {
	return first(j.receive(ctx, u, []string{setCookie}, func(rules *cookiestore.Jar, value string) error {
		return rules.ParseFor(u, page, value, crossSite)
	}))
}

func first(errs []error, err error) error {
	if err != nil {
		return err
	}
	return errs[0]
}

// parser inserts the cookie of a header value into a jar with the public suffix list.
type parser func(rules *cookiestore.Jar, value string) error

// receive parses header values, and inserts the cookies that parse inserts.
func (j *Jar) receive(ctx context.Context, u *url.URL, values []string, parse parser) ([]error, error) {
	root, err := j.rules.jar.Root(u)
	if err != nil {
		return nil, err
	}
	errs := make([]error, len(values))
	err = j.change(ctx, root, func(s *site) error {
		for i, value := range values {
			accepted, err := j.rules.accept(func(rules *cookiestore.Jar) error { return parse(rules, value) })
			if !isFinal(err) {
				if accepted != nil && accepted.HostOnly {
					value += "; Domain=" // as without a Domain attribute, which may be a public suffix
				}
				err = s.insert(accepted, func() error { return s.jar.Parse(u, value) })
			}
			errs[i] = err
		}
		return nil
	})
	if err != nil {
		return nil, err
	}
	return errs, nil
}

// isFinal reports whether an error of an empty jar with the list is that of any jar: the call failed, or the reason depends on the
// list and on the page, and not on what is stored.
func isFinal(err error) bool {
	var failed *cookiestore.Error
	if !errors.As(err, &failed) {
		return err != nil
	}
	status := failed.Status
	return !status.IsRejection() || status == cookiestore.ErrPublicSuffix || status == cookiestore.ErrCrossSiteResponse
}

// Insert inserts a cookie by its parts, as if its own domain had sent it, as cookiestore.Jar.Insert does.
func (j *Jar) Insert(ctx context.Context, cookie cookiestore.Cookie) error {
	root, err := j.rules.jar.RootOfDomain(cookie.Domain)
	if err != nil {
		return err
	}
	return j.change(ctx, root, func(s *site) error {
		accepted, err := j.rules.accept(func(rules *cookiestore.Jar) error { return rules.Insert(cookie) })
		if isFinal(err) {
			return err
		}
		with := cookie
		with.HostOnly = cookie.HostOnly || accepted != nil && accepted.HostOnly
		return s.insert(accepted, func() error { return s.jar.Insert(with) })
	})
}

// Header returns the value of the Cookie header of a request for u, as cookiestore.Jar.Header does.
func (j *Jar) Header(ctx context.Context, u *url.URL) (string, error) {
	s, err := j.siteOf(ctx, u)
	if err != nil {
		return "", err
	}
	defer s.jar.Close()
	return s.jar.Header(u)
}

// HeaderFor returns the value of the Cookie header of a request for u that a page made, as cookiestore.Jar.HeaderFor does.
func (j *Jar) HeaderFor(ctx context.Context, u, page *url.URL, crossSite cookiestore.CrossSite) (string, error) {
	_, err := j.rules.accept(func(rules *cookiestore.Jar) error { return rules.ParseFor(u, page, "a=1", cookiestore.CrossSite{}) })
	if err == nil {
		return j.Header(ctx, u)
	}
	if !errors.Is(err, cookiestore.ErrCrossSiteResponse) {
		return "", err
	}
	s, err := j.siteOf(ctx, u)
	if err != nil {
		return "", err
	}
	defer s.jar.Close()
	return s.jar.HeaderFor(u, page, crossSite) // without a list too, URLs of several sites are cross-site
}

// Remove removes the cookie with this domain, path and name. The reason of the error is ErrNotFound if there is no such cookie, or
// it has expired.
func (j *Jar) Remove(ctx context.Context, domain, path, name string) error {
	root, err := j.rules.jar.RootOfDomain(domain)
	if err != nil {
		return err
	}
	return j.change(ctx, root, func(s *site) error {
		s.changed = true
		return s.jar.Remove(domain, path, name)
	})
}

// Roots returns the roots that have cookies, expired ones included, in any order. Errors are those of Values.Keys.
func (j *Jar) Roots(ctx context.Context) ([]string, error) { return j.values.Keys(ctx) }

// Site returns a new strict jar, without a public suffix list, with the cookies of a root that have not expired.
func (j *Jar) Site(ctx context.Context, root string) (*cookiestore.Jar, error) {
	s, err := j.read(ctx, root)
	if err != nil {
		return nil, err
	}
	return s.jar, nil
}

// RemoveRoot removes the cookies of a root, or what else is its value.
func (j *Jar) RemoveRoot(ctx context.Context, root string) error {
	return j.try(ctx, root, func() (done bool, err error) {
		value, err := j.values.Get(ctx, root)
		if err != nil {
			return false, err
		}
		return j.values.Swap(ctx, root, value, nil)
	})
}

// Clear removes all cookies, those of one root after the other. Errors are those of Values.Keys and RemoveRoot.
func (j *Jar) Clear(ctx context.Context) error {
	return j.each(ctx, func(root string) error { return j.RemoveRoot(ctx, root) })
}

// RemoveExpired removes the cookies that have expired, those of one root after the other, and returns their number. They are never
// sent. Without this call they are removed when a cookie of their root is inserted or removed.
//
// Errors are those of Values.Keys, and of a call on the cookies of a root.
func (j *Jar) RemoveExpired(ctx context.Context) (removed int, err error) {
	err = j.each(ctx, func(root string) error {
		count := 0
		err := j.change(ctx, root, func(s *site) (err error) {
			count, err = s.expired()
			s.changed = count > 0
			return err
		})
		if err == nil {
			removed += count
		}
		return err
	})
	return removed, err
}

// each calls a function for each root, until it returns an error.
func (j *Jar) each(ctx context.Context, call func(root string) error) error {
	roots, err := j.Roots(ctx)
	for _, root := range roots {
		if err != nil {
			break
		}
		err = call(root)
	}
	return err
}
