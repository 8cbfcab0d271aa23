package cookiestore_test

import (
	"bytes"
	"errors"
	"fmt"
	"log"
	"net/http"
	"net/http/httptest"
	"net/url"

	"pulleymaroon/cookiestore"
)

func Example() {
	server := httptest.NewServer(http.HandlerFunc(func(w http.ResponseWriter, r *http.Request) {
		w.Header().Set("Set-Cookie", "visits=1; Max-Age=3600")
	}))
	defer server.Close()

	jar, err := cookiestore.New(nil)
	if err != nil {
		log.Fatal(err)
	}
	defer jar.Close()
	client := &http.Client{Jar: jar}
	response, err := client.Get(server.URL)
	if err != nil {
		log.Fatal(err)
	}
	response.Body.Close()
	for _, cookie := range jar.All() {
		fmt.Println(cookie.Domain, cookie.Path, cookie.Name, cookie.Value)
	}
	// Output: 127.0.0.1 / visits 1
}

func ExampleNew() {
	list, err := cookiestore.SystemPublicSuffixList()
	if err != nil {
		log.Fatal(err)
	}
	jar, err := cookiestore.New(&cookiestore.Options{
		PublicSuffixList: list,
		DomainLimit:      50,
		Strict:           true,
		OnDropped: func(host, name string, err error) {
			log.Printf("%q: cookie %q: %v", host, name, err)
		},
	})
	if err != nil {
		log.Fatal(err)
	}
	defer jar.Close()
}

func ExampleJar_Parse() {
	jar, err := cookiestore.New(&cookiestore.Options{PublicSuffixList: []byte("uk\nco.uk\n")})
	if err != nil {
		log.Fatal(err)
	}
	defer jar.Close()
	page := &url.URL{Scheme: "https", Host: "shop.co.uk", Path: "/"}
	err = jar.Parse(page, "a=1; Domain=co.uk")
	fmt.Println(err)
	fmt.Println(errors.Is(err, cookiestore.ErrPublicSuffix))
	// Output:
	// cookiestore: the domain is a public suffix
	// true
}

func ExampleJar_Header() {
	jar, err := cookiestore.New(nil)
	if err != nil {
		log.Fatal(err)
	}
	defer jar.Close()
	page := &url.URL{Scheme: "http", Host: "example.com", Path: "/foo/bar"}
	for _, value := range []string{"root=1; Path=/", `quoted="x, y"`} {
		if err := jar.Parse(page, value); err != nil {
			log.Fatal(err)
		}
	}
	header, err := jar.Header(page)
	if err != nil {
		log.Fatal(err)
	}
	fmt.Println("Cookie:", header)
	// Output: Cookie: quoted="x, y"; root=1
}

func ExampleLoad() {
	jar, err := cookiestore.New(nil)
	if err != nil {
		log.Fatal(err)
	}
	defer jar.Close()
	page := &url.URL{Scheme: "https", Host: "example.com", Path: "/"}
	if err := jar.Parse(page, "token=2; Secure; Expires=Thu, 31 Dec 2099 23:59:59 GMT"); err != nil {
		log.Fatal(err)
	}
	var file bytes.Buffer
	if err := jar.Save(&file, cookiestore.Netscape, cookiestore.UnexpiredCookies); err != nil {
		log.Fatal(err)
	}
	fmt.Print(file.String())

	loaded, err := cookiestore.Load(&file, cookiestore.Netscape, cookiestore.UnexpiredCookies, nil)
	if err != nil {
		log.Fatal(err)
	}
	defer loaded.Close()
	fmt.Println(loaded.Header(page))
	// Output:
	// # Netscape HTTP Cookie File
	// example.com	FALSE	/	TRUE	4102444799	token	2
	// token=2 <nil>
}
