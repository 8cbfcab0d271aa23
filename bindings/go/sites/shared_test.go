package sites_test

import (
	"context"
	"crypto/sha256"
	"encoding/json"
	"fmt"
	"math/rand"
	"os"
	"os/exec"
	"strconv"
	"sync"
	"testing"

	"pulleymaroon/cookiestore/sites"
)

const processes, goroutines, siteCount, each = 4, 8, 100, 20

// call is a call of Receive, what it returned, and the write that it made: the root, and hashes of the values before and after.
type call struct {
	URL            string
	Cookies        []string
	Result         string
	Root, Old, New string
}

// recorded are values that set the write of the call of a context.
type recorded struct{ sites.Values }

type callKey struct{}

func (r recorded) Swap(ctx context.Context, key string, old, new []byte) (bool, error) {
	swapped, err := r.Values.Swap(ctx, key, old, new)
	if made, ok := ctx.Value(callKey{}).(*call); ok && swapped {
		made.Root, made.Old, made.New = key, hash(old), hash(new)
	}
	return swapped, err
}

func hash(value []byte) string {
	if value == nil {
		return ""
	}
	return fmt.Sprintf("%x", sha256.Sum256(value))
}

// atOnce calls a function in this many goroutines.
func atOnce(count int, work func(i int)) {
	var group sync.WaitGroup
	for i := 0; i < count; i++ {
		group.Add(1)
		go func(i int) {
			defer group.Done()
			work(i)
		}(i)
	}
	group.Wait()
}

// work has goroutines make calls of one jar, and returns these.
func work(values sites.Values, number int) []call {
	jar := must(sites.New(recorded{values}, &sites.Options{PublicSuffixList: suffixes}))
	defer jar.Close()
	made := make([]call, goroutines*each)
	atOnce(goroutines, func(i int) { makeCalls(jar, number*goroutines+i, made[i*each:(i+1)*each]) })
	return made
}

// makeCalls inserts cookies. Some are of site 0, and replace one another. Those of the others have names that no other call has.
func makeCalls(jar *sites.Jar, number int, made []call) {
	r := rand.New(rand.NewSource(int64(number)))
	for i := range made {
		site, name, c := 1+r.Intn(siteCount-1), fmt.Sprintf("n%d_%d_", number, i), &made[i]
		if r.Intn(5) == 0 {
			site, name = 0, "n"
		}
		domain := fmt.Sprintf("site%d.com", site)
		c.URL = "https://" + pick(r, "", "www.", "a.b.") + domain + pick(r, "/", "/d/e")
		for k := r.Intn(3); k >= 0; k-- {
			value := fmt.Sprintf("%s%d=%d_%d", name, k, number, i)
			c.Cookies = append(c.Cookies, value+pick(r, "", "; Path=/")+pick(r, "", "; Domain="+domain))
		}
		u := parseURL(c.URL)
		c.Result = fmt.Sprint(must(jar.Receive(context.WithValue(ctx, callKey{}, c), u, c.Cookies)))
		jar.Cookies(u)
	}
}

// TestMain makes the calls of a process if the arguments are the place of its values and its number.
func TestMain(m *testing.M) {
	if len(os.Args) == 4 && os.Args[1] == "work" {
		json.NewEncoder(os.Stdout).Encode(work(must(open(os.Args[2])), must(strconv.Atoi(os.Args[3]))))
		return
	}
	os.Exit(m.Run())
}

// expectOneStore compares what is stored with what one store has that takes the calls in the order of their writes.
func expectOneStore(t *testing.T, values sites.Values, made []call) {
	t.Helper()
	jar, one, writes := newJar(t, values, sites.Options{}), oneStore(t, 0), map[string]map[string]call{}
	for _, c := range made {
		if writes[c.Root] == nil {
			writes[c.Root] = map[string]call{}
		}
		writes[c.Root][c.Old] = c
	}
	replayed := 0
	for root, next := range writes {
		for c, ok := next[""]; ok; c, ok = next[c.New] {
			errs := make([]error, len(c.Cookies))
			for i, value := range c.Cookies {
				errs[i] = one.Parse(parseURL(c.URL), value)
			}
			expect(t, c.URL, c.Result, errs)
			replayed++
		}
		for _, text := range []string{"https://" + root + "/", "https://www." + root + "/d/e", "http://a.b." + root + "/d/e"} {
			expect(t, text, must(jar.Header(ctx, parseURL(text))), must(one.Header(parseURL(text))))
		}
	}
	expect(t, "calls", replayed, len(made)) // no write was lost
	expect(t, "cookies", listOf(sitesOf(t, jar)...), listOf(one))
}

func TestGoroutines(t *testing.T) {
	values := new(sites.MemoryValues)
	expectOneStore(t, values, work(values, 0))
}

func TestProcesses(t *testing.T) {
	testShared(t, func(t *testing.T, newPlace func() string) {
		place, parts, all := newPlace(), [processes][]call{}, []call{}
		atOnce(processes, func(i int) {
			printed := must(exec.Command(os.Args[0], "work", place, strconv.Itoa(i)).Output())
			json.Unmarshal(printed, &parts[i])
		})
		for _, part := range parts {
			all = append(all, part...)
		}
		expect(t, "number of calls", len(all), processes*goroutines*each)
		expectOneStore(t, must(open(place)), all)
	})
}
