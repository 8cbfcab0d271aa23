package sites

import (
	"bytes"
	"encoding/json"
	"errors"
	"fmt"
	"sort"
	"strings"

	"pulleymaroon/cookiestore"
)

// BadListError is the error of a value that is not a list of cookies. The value is left alone: Jar.RemoveRoot removes it.
type BadListError struct {
	Root   string             // its key
	Status cookiestore.Status // that of cookiestore.Load; it is not the reason of a rejected cookie, and so it is not unwrapped
}

func (e *BadListError) Error() string {
	return fmt.Sprintf("sites: the cookies of %q: %s", e.Root, e.Status.String())
}

// ConflictError is the error of a call at each of whose attempts others wrote the cookies of the root. Nothing is written.
type ConflictError struct {
	Root     string
	Attempts int
}

func (e *ConflictError) Error() string {
	return fmt.Sprintf("sites: the cookies of %q: others wrote them at each of %d attempts", e.Root, e.Attempts)
}

// site is the cookies of a root during a call.
type site struct {
	jar     *cookiestore.Jar // strict, without a public suffix list
	value   []byte           // the list that was loaded, or nil
	created []key            // the cookies that the call created, in order
	changed bool             // whether the cookies are to be written
}

// key is what is unique to a cookie.
type key struct{ domain, path, name string }

// load returns the cookies of a list, or of none, that have not expired. Errors: *BadListError, ErrNoMemory.
func load(root string, value []byte, options *Options) (*site, error) {
	list := value
	if list == nil {
		list = []byte("[]")
	}
	jar, err := cookiestore.Load(bytes.NewReader(list), cookiestore.JSON, cookiestore.UnexpiredCookies, &cookiestore.Options{
		Strict: true, DomainLimit: options.DomainLimit, OnDropped: options.OnDropped,
	})
	var failed *cookiestore.Error
	if errors.As(err, &failed) && failed.Status != cookiestore.ErrNoMemory {
		return nil, &BadListError{root, failed.Status}
	}
	if err != nil {
		return nil, err
	}
	return &site{jar: jar, value: value}, nil
}

// insert inserts a cookie, of which an empty jar with the public suffix list stores this one, or nil.
func (s *site) insert(accepted *cookiestore.Cookie, insert func() error) error {
	isNew := accepted != nil
	for _, cookie := range s.jar.All() {
		isNew = isNew && keyOf(&cookie) != keyOf(accepted)
	}
	if err := insert(); err != nil {
		return err
	}
	if s.changed = true; isNew {
		s.created = append(s.created, keyOf(accepted))
	}
	return nil
}

func keyOf(cookie *cookiestore.Cookie) key { return key{cookie.Domain, cookie.Path, cookie.Name} }

// expired returns how many cookies had expired when the list was loaded.
func (s *site) expired() (int, error) {
	items, err := itemsOf(s.value)
	return len(items) - s.jar.Len(), err
}

// list returns the list of the cookies that have not expired, in creation order, or nil if there are none.
func (s *site) list() ([]byte, error) {
	var saved, list bytes.Buffer
	if err := s.jar.Save(&saved, cookiestore.JSON, cookiestore.UnexpiredCookies); err != nil {
		return nil, err
	}
	items, err := itemsOf(saved.Bytes()) // by domain and path
	if err != nil || len(items) == 0 {
		return nil, err
	}
	place, err := s.places()
	if err != nil {
		return nil, err
	}
	sort.SliceStable(items, func(i, k int) bool { return place(items[i].key) < place(items[k].key) })
	parts := make([][]byte, len(items))
	for i, item := range items {
		parts[i] = item.text
	}
	err = json.Compact(&list, append(append([]byte("["), bytes.Join(parts, []byte(","))...), ']'))
	return list.Bytes(), err
}

// places returns a function that returns the place of a cookie in creation order: in the list that was loaded, or behind it.
func (s *site) places() (func(key) int, error) {
	items, err := itemsOf(s.value)
	places := make(map[key]int, len(items)+len(s.created))
	for i := len(items) - 1; i >= 0; i-- { // the first of several with one key
		places[items[i].key] = i
	}
	for i, key := range s.created {
		places[key] = len(items) + i
	}
	return func(k key) int {
		if place, ok := places[k]; ok {
			return place
		}
		return len(items) + len(s.created)
	}, err
}

// item is a cookie of a list, as JSON.
type item struct {
	text []byte
	key  key
}

// itemsOf returns the cookies of a list, or of none, that was loaded or saved.
func itemsOf(list []byte) ([]item, error) {
	if list == nil {
		return nil, nil
	}
	var texts []json.RawMessage
	if err := json.Unmarshal(list, &texts); err != nil {
		return nil, err
	}
	items := make([]item, len(texts))
	for i, text := range texts {
		var cookie struct {
			RawCookie string `json:"raw_cookie"`
			Path      [2]any `json:"path"`
			Domain    any    `json:"domain"`
		}
		if err := json.Unmarshal(text, &cookie); err != nil {
			return nil, err
		}
		if kinds, ok := cookie.Domain.(map[string]any); ok { // {"HostOnly":"a.example"} or {"Suffix":"a.example"}
			for _, domain := range kinds {
				cookie.Domain = domain
			}
		}
		name, _, _ := strings.Cut(cookie.RawCookie, "=")
		items[i] = item{text, key{fmt.Sprint(cookie.Domain), fmt.Sprint(cookie.Path[0]), name}}
	}
	return items, nil
}
