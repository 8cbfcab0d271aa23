package sites_test

import (
	"bytes"
	"encoding/json"
	"fmt"
	"io/fs"
	"net/http"
	"os"
	"os/exec"
	"path/filepath"
	"testing"
	"time"

	"pulleymaroon/cookiestore/sites"
)

// script makes the calls of a task with Python's package, and prints the headers of their URLs then.
const script = `
import json, sys
from cookie_store.sites import FolderValues, RedisValues, SiteStore
task = json.load(sys.stdin)
if task['Place'].endswith('.socket'):
    import redis
    values = RedisValues(redis.Redis(unix_socket_path=task['Place']))
else:
    values = FolderValues(task['Place'])
for key in task['Keys'] or []:
    values.swap(key, None, key.encode())
sites = SiteStore(values, suffixes=task['Suffixes'])
for url, *cookies in task['Calls']:
    assert sites.receive(url, cookies) == len(cookies), url
json.dump([sites.header(url) for url, *_ in task['Calls']], sys.stdout)
`

// task is calls of the sites of a place, each a URL and Set-Cookie header values, and keys to set.
type task struct {
	Place, Suffixes string
	Keys            []string
	Calls           [][]string
}

// findPython returns a Python that has the package, and the client of Redis for a socket.
func findPython(t *testing.T, place string) string {
	modules := "cookie_store.sites"
	if filepath.Ext(place) == ".socket" {
		modules += ", redis"
	}
	for _, name := range []string{"python3", "/usr/bin/python3"} {
		if exec.Command(name, "-c", "import "+modules).Run() == nil {
			return name
		}
	}
	t.Skip("no python3 has ", modules)
	return ""
}

// inPython makes a task, and returns the headers.
func inPython(python string, made task) (headers []string) {
	command := exec.Command(python, "-c", script)
	command.Stdin, command.Stderr = bytes.NewReader(must(json.Marshal(made))), os.Stderr
	json.Unmarshal(must(command.Output()), &headers)
	return headers
}

// inGo does the same.
func inGo(t *testing.T, made task) (headers []string) {
	values := must(open(made.Place))
	for _, key := range made.Keys {
		must(values.Swap(ctx, key, nil, []byte(key)))
	}
	jar := newJar(t, values, sites.Options{})
	for _, call := range made.Calls {
		expect(t, call[0], must(jar.Receive(ctx, parseURL(call[0]), call[1:])), make([]error, len(call)-1))
	}
	for _, call := range made.Calls {
		headers = append(headers, must(jar.Header(ctx, parseURL(call[0]))))
	}
	return headers
}

// contents returns the values by their keys, or the files of a folder by their names, locks included.
func contents(place string) map[string]string {
	found, values := map[string]string{}, must(open(place))
	for _, key := range must(values.Keys(ctx)) {
		found[key] = string(must(values.Get(ctx, key)))
	}
	if filepath.Ext(place) == ".socket" {
		return found
	}
	files := os.DirFS(place)
	fs.WalkDir(files, ".", func(path string, entry fs.DirEntry, err error) error {
		if err == nil && !entry.IsDir() {
			found["file "+path] = string(must(fs.ReadFile(files, path)))
		}
		return err
	})
	return found
}

// Go and Python write the same bytes, and each sends the cookies of the other.
func TestPython(t *testing.T) {
	const odd = "c=\u00fc\"\\<&>\u2028\t/"
	expires := time.Now().Add(time.Hour).UTC().Format(http.TimeFormat)
	testShared(t, func(t *testing.T, newPlace func() string) {
		first := task{newPlace(), string(suffixes), keys[2:], [][]string{
			{"https://www.a.example/d/e", "a=1; Domain=a.example", "b=2; Secure; HttpOnly; SameSite=Lax", odd + "; Path=/"},
			{"https://a.b.example/d/", "d=4; Expires=" + expires, "a=5; Domain=b.example", "f=6; Domain=b.example"},
			{"http://[::1]:80/", "g=7"}, {"http://co.uk/", "h=8; Domain=co.uk"}, {"http://a.b.kobe.jp/", "i=9"},
		}}
		second, python := first, findPython(t, first.Place)
		second.Place = newPlace()
		expect(t, "headers", inGo(t, first), inPython(python, second))
		expect(t, "contents", contents(first.Place), contents(second.Place))

		first.Keys, first.Calls = nil, [][]string{{first.Calls[0][0], "g=1"}}
		second = first
		second.Calls = [][]string{{first.Calls[0][0], "p=2"}}
		inGo(t, first)
		expect(t, "header of Python", inPython(python, second), "[a=1; b=2; g=1; p=2; "+odd+"]")
		expect(t, "header of Go", inGo(t, first), "[a=1; b=2; g=1; p=2; "+odd+"]")

		for i := 0; i < 50; i++ {
			first.Calls = append(first.Calls, []string{first.Calls[0][0], fmt.Sprintf("g%d=%d", i, i)})
			second.Calls = append(second.Calls, []string{first.Calls[0][0], fmt.Sprintf("p%d=%d", i, i)})
		}
		atOnce(2, func(i int) {
			if i == 0 {
				inPython(python, second)
			} else {
				inGo(t, first)
			}
		})
		cookies := must(newJar(t, must(open(first.Place)), sites.Options{}).Site(ctx, "a.example"))
		defer cookies.Close()
		expect(t, "cookies of both", cookies.Len(), 5+100)
	})
}
