// Runs the lines 'set URL HEADER', 'get URL', 'remove DOMAIN PATH NAME' and 'clear' of a script over Go's
// net/http/cookiejar: a peer for tools/bench. The jar reads the system's clock, so 'now' lines are skipped.
package main

import (
	"bufio"
	"io"
	"log"
	"net/http"
	"net/http/cookiejar"
	"net/url"
	"os"
	"strings"
)

func main() {
	jar := newJar()
	in := bufio.NewReaderSize(os.Stdin, 1<<16)
	out := bufio.NewWriterSize(os.Stdout, 1<<16)
	defer out.Flush()
	for {
		line, err := in.ReadString('\n')
		if err == io.EOF {
			return
		}
		if err != nil {
			log.Fatal(err)
		}
		verb, words, _ := strings.Cut(strings.TrimRight(line, "\r\n"), " ")
		switch verb {
		case "set":
			address, header, _ := strings.Cut(words, " ")
			response := http.Response{Header: http.Header{"Set-Cookie": {header}}}
			jar.SetCookies(parseURL(address), response.Cookies())
			out.WriteString("inserted\n")
		case "get":
			get(jar, words, out)
		case "remove":
			remove(jar, words)
			out.WriteString("removed\n")
		case "clear":
			jar = newJar()
			out.WriteString("cleared\n")
		}
	}
}

func newJar() *cookiejar.Jar {
	jar, err := cookiejar.New(nil)
	if err != nil {
		log.Fatal(err)
	}
	return jar
}

func get(jar *cookiejar.Jar, address string, out *bufio.Writer) {
	out.WriteString("Cookie:")
	separator := " "
	for _, cookie := range jar.Cookies(parseURL(address)) {
		for _, part := range [...]string{separator, cookie.Name, "=", cookie.Value} {
			out.WriteString(part)
		}
		separator = "; "
	}
	out.WriteString("\n")
}

// remove expires a host-only cookie, the only way in which a Jar removes one.
func remove(jar *cookiejar.Jar, words string) {
	parts := strings.SplitN(words, " ", 3)
	if len(parts) < 3 {
		log.Fatal("remove DOMAIN PATH NAME")
	}
	cookie := http.Cookie{Name: parts[2], Path: parts[1], MaxAge: -1}
	jar.SetCookies(&url.URL{Scheme: "http", Host: parts[0], Path: parts[1]}, []*http.Cookie{&cookie})
}

func parseURL(text string) *url.URL {
	parsed, err := url.Parse(text)
	if err != nil {
		log.Fatal(err)
	}
	return parsed
}
