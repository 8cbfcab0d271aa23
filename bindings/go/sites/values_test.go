package sites_test

import (
	"bufio"
	"context"
	"errors"
	"fmt"
	"io"
	"io/fs"
	"net"
	"os"
	"os/exec"
	"path/filepath"
	"sort"
	"strconv"
	"strings"
	"sync"
	"syscall"
	"testing"
	"time"

	"pulleymaroon/cookiestore/sites"
)

// keys are names that are escaped, or split into folders.
var keys = []string{"a.example", "[::1]", "", ".", "..", "a/b", "../a", "a+b", "a b", "a%b", "A.example", "\u00fc", "a\nb", "a*",
	"x.json", "x.new", "1.lock", strings.Repeat("n", 195) + ".json", strings.Repeat("n", 200), strings.Repeat("n", 201),
	strings.Repeat("\u00fc", 300)}

// testShared runs a test with a folder and with a Redis. A place names them; open returns their values.
func testShared(t *testing.T, test func(t *testing.T, newPlace func() string)) {
	t.Run("folder", func(t *testing.T) { test(t, func() string { return filepath.Join(t.TempDir(), "a", "sites") }) })
	t.Run("Redis", func(t *testing.T) { test(t, func() string { return startRedis(t) }) })
}

func open(place string) (sites.Values, error) {
	if filepath.Ext(place) != ".socket" {
		return sites.FolderValues(place), nil
	}
	client, err := dial(place)
	return sites.RedisValues{Do: func(ctx context.Context, args ...any) (any, error) {
		return client.Do(ctx, args...).Result()
	}}, err
}

func TestValues(t *testing.T) {
	t.Run("memory", func(t *testing.T) { testValues(t, new(sites.MemoryValues)) })
	testShared(t, func(t *testing.T, newPlace func() string) {
		values := must(open(newPlace()))
		testValues(t, values)
		if redis, ok := values.(sites.RedisValues); ok {
			redis.Prefix = `a*?[b]\^:`
			testValues(t, redis)
		}
	})
}

func testValues(t *testing.T, values sites.Values) {
	swap := func(key string, old, new []byte, want bool) {
		t.Helper()
		swapped, err := values.Swap(ctx, key, old, new)
		expect(t, fmt.Sprintf("Swap(%q, %q, %q)", key, old, new), []any{swapped, err}, []any{want, nil})
	}
	expectKeys := func(want []string) {
		t.Helper()
		found := must(values.Keys(ctx))
		sort.Strings(found)
		expect(t, "Keys", fmt.Sprintf("%q", found), fmt.Sprintf("%q", want))
	}
	expectKeys(nil)
	for _, key := range keys {
		swap(key, nil, nil, true)
		swap(key, []byte("[]"), []byte("[1]"), false)
		swap(key, nil, []byte{}, true)
		swap(key, nil, []byte("[]"), false)
		swap(key, []byte{}, []byte(key+"\x00\xff\r\n"), true)
		expect(t, "Get", string(must(values.Get(ctx, key))), key+"\x00\xff\r\n")
	}
	sorted := append([]string{}, keys...)
	sort.Strings(sorted)
	expectKeys(sorted)
	for _, key := range keys {
		swap(key, []byte(key), nil, false)
		swap(key, []byte(key+"\x00\xff\r\n"), nil, true)
		expect(t, "no value", must(values.Get(ctx, key)) == nil, true)
	}
	expectKeys(nil)
}

// What a killed writer left is no value, and is replaced. Files of others are left alone.
func TestFolder(t *testing.T) {
	folder := t.TempDir()
	for _, name := range []string{"a.example.json.new", "a%.json", "%61.json", "cookies.txt"} {
		if err := os.WriteFile(filepath.Join(folder, name), []byte(`[{"raw_cookie":"a lo`), 0o600); err != nil {
			t.Fatal(err)
		}
	}
	values := sites.FolderValues(folder)
	expect(t, "Keys and Get", []any{must(values.Keys(ctx)), must(values.Get(ctx, "a.example")) == nil}, "[[] true]")
	expect(t, "Swap", must(values.Swap(ctx, "a.example", nil, []byte("[]"))), true)
	expect(t, "Keys and Get", []any{must(values.Keys(ctx)), string(must(values.Get(ctx, "a.example")))}, "[[a.example] []]")
	expect(t, "mode", must(os.Stat(filepath.Join(folder, "a.example.json"))).Mode(), fs.FileMode(0o600))
	_, err := sites.FolderValues(filepath.Join(folder, "cookies.txt")).Swap(ctx, "a.example", nil, []byte("[]"))
	if !errors.Is(err, syscall.ENOTDIR) {
		t.Errorf("Swap below a file: %v", err)
	}
}

// startRedis returns the socket of a new Redis, which is ended with the test.
func startRedis(t *testing.T) string {
	t.Helper()
	socket := filepath.Join(t.TempDir(), "redis.socket")
	server := exec.Command("redis-server", "--port", "0", "--unixsocket", socket, "--save", "", "--appendonly", "no")
	if err := server.Start(); err != nil {
		t.Skip(err)
	}
	t.Cleanup(func() { server.Process.Kill(); server.Wait() })
	for began := time.Now(); time.Since(began) < time.Minute; time.Sleep(10 * time.Millisecond) {
		if client, err := dial(socket); err == nil {
			client.conn.Close()
			return socket
		}
	}
	t.Fatal("redis-server does not listen")
	return ""
}

// redisClient is a client with the call Do of go-redis, over one connection.
type redisClient struct {
	mu   sync.Mutex
	conn net.Conn
	read *bufio.Reader
}

type redisReply struct {
	value any
	err   error
}

func (r redisReply) Result() (any, error) { return r.value, r.err }

func dial(socket string) (*redisClient, error) {
	conn, err := net.Dial("unix", socket)
	return &redisClient{conn: conn, read: bufio.NewReader(conn)}, err
}

func (c *redisClient) Do(_ context.Context, args ...any) redisReply {
	c.mu.Lock()
	defer c.mu.Unlock()
	command := fmt.Sprintf("*%d\r\n", len(args))
	for _, arg := range args {
		command += fmt.Sprintf("$%d\r\n%s\r\n", len(arg.(string)), arg)
	}
	if _, err := io.WriteString(c.conn, command); err != nil {
		return redisReply{nil, err}
	}
	value, err := c.reply()
	return redisReply{value, err}
}

func (c *redisClient) reply() (any, error) {
	line, err := c.read.ReadString('\n')
	if err != nil {
		return nil, err
	}
	kind, rest := line[0], strings.TrimSpace(line[1:])
	if kind == '-' {
		return nil, errors.New(rest)
	}
	n, err := strconv.Atoi(rest)
	switch {
	case err != nil:
		return nil, err
	case kind == ':':
		return int64(n), nil
	case n < 0:
		return nil, nil
	case kind == '*':
		list := make([]any, n)
		for i := range list {
			if list[i], err = c.reply(); err != nil {
				break
			}
		}
		return list, err
	}
	text := make([]byte, n+len("\r\n"))
	_, err = io.ReadFull(c.read, text)
	return string(text[:n]), err
}
