// Fetch gets URLs with the cookies of a file, prints the bodies, and saves the unexpired cookies.
//
//	fetch FILE URL..
package main

import (
	"errors"
	"fmt"
	"io"
	"log"
	"net/http"
	"os"
	"path/filepath"
	"time"

	"pulleymaroon/cookiestore"
)

func main() {
	log.SetFlags(0)
	log.SetPrefix("fetch: ")
	if len(os.Args) < 3 {
		log.Fatal("usage: fetch FILE URL..")
	}
	if err := run(os.Args[1], os.Args[2:]); err != nil {
		log.Fatal(err)
	}
}

func run(file string, urls []string) error {
	jar, err := load(file)
	if err != nil {
		return err
	}
	defer jar.Close()
	client := &http.Client{Jar: jar, Timeout: 30 * time.Second}
	var failed error
	for _, url := range urls {
		if failed = get(client, url); failed != nil {
			break
		}
	}
	if err := save(jar, file); err != nil {
		return err
	}
	return failed
}

func load(name string) (*cookiestore.Jar, error) {
	file, err := os.Open(name)
	if errors.Is(err, os.ErrNotExist) {
		return cookiestore.New(nil)
	}
	if err != nil {
		return nil, err
	}
	defer file.Close()
	return cookiestore.Load(file, cookiestore.JSON, cookiestore.UnexpiredCookies, nil)
}

func get(client *http.Client, url string) error {
	response, err := client.Get(url)
	if err != nil {
		return err
	}
	defer response.Body.Close()
	body, err := io.ReadAll(response.Body)
	if err != nil {
		return err
	}
	_, err = fmt.Printf("%s\n", body)
	return err
}

// save replaces the file at once, by one that only its owner can read.
func save(jar *cookiestore.Jar, name string) error {
	file, err := os.CreateTemp(filepath.Dir(name), filepath.Base(name)+".*")
	if err != nil {
		return err
	}
	defer os.Remove(file.Name()) // fails once it is renamed
	defer file.Close()
	if err := jar.Save(file, cookiestore.JSON, cookiestore.UnexpiredCookies); err != nil {
		return err
	}
	if err := file.Sync(); err != nil {
		return err
	}
	return os.Rename(file.Name(), name)
}
