package sites_test

import (
	"context"
	"fmt"
	"log"
	"net/http"
	"net/http/httptest"

	"pulleymaroon/cookiestore/sites"
)

// Two clients share the cookies, as processes do.
func Example() {
	server := httptest.NewServer(http.HandlerFunc(func(w http.ResponseWriter, r *http.Request) {
		fmt.Printf("Cookie: %q\n", r.Header.Get("Cookie"))
		w.Header().Set("Set-Cookie", "session=1")
	}))
	defer server.Close()

	values := new(sites.MemoryValues) // or sites.FolderValues("sites"), or sites.RedisValues
	for i := 0; i < 2; i++ {
		jar, err := sites.New(values, &sites.Options{PublicSuffixList: []byte("com\nuk\nco.uk\n")})
		if err != nil {
			log.Fatal(err)
		}
		defer jar.Close()
		client := &http.Client{Jar: jar}
		response, err := client.Get(server.URL)
		if err != nil {
			log.Fatal(err)
		}
		response.Body.Close()
	}
	fmt.Println(values.Keys(context.Background()))
	// Output:
	// Cookie: ""
	// Cookie: "session=1"
	// [127.0.0.1] <nil>
}

func ExampleFolderValues() {
	jar, err := sites.New(sites.FolderValues("sites"), nil)
	if err != nil {
		log.Fatal(err)
	}
	defer jar.Close()
	client := &http.Client{Jar: jar}
	response, err := client.Get("https://www.example.com/")
	if err != nil {
		log.Fatal(err)
	}
	response.Body.Close()
}

func ExampleRedisValues() {
	client, err := dial("redis.socket") // or redis.NewClient(&redis.Options{Addr: "localhost:6379"})
	if err != nil {
		log.Fatal(err)
	}
	values := sites.RedisValues{Do: func(ctx context.Context, args ...any) (any, error) {
		return client.Do(ctx, args...).Result()
	}}
	jar, err := sites.New(values, nil)
	if err != nil {
		log.Fatal(err)
	}
	defer jar.Close()
}
