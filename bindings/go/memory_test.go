package cookiestore

import (
	"fmt"
	"os"
	"runtime"
	"strings"
	"testing"
	"time"
)

// Jars that are forgotten, and not closed, are freed: with the cookies of all of them the process would have 400 MB.
func TestForgottenJarsAreFreed(t *testing.T) {
	const jars, megabyte, most = 400, 1 << 20, 100
	value, page := "a="+strings.Repeat("x", megabyte), parseURL(t, "http://example.com/")
	before := residentMegabytes(t)
	for i := 0; i < jars; i++ {
		jar, err := New(nil)
		if err != nil {
			t.Fatal(err)
		}
		if err := jar.Parse(page, value); err != nil {
			t.Fatal(err)
		}
		if i%10 == 9 {
			runtime.GC()
			time.Sleep(time.Millisecond) // finalizers run in a goroutine of their own
		}
	}
	if grown := residentMegabytes(t) - before; grown > most {
		t.Errorf("%d MB for %d forgotten jars", grown, jars)
	}
}

func residentMegabytes(t *testing.T) int {
	t.Helper()
	text, err := os.ReadFile("/proc/self/statm")
	if err != nil {
		t.Skip(err)
	}
	var size, resident int
	if _, err := fmt.Sscan(string(text), &size, &resident); err != nil {
		t.Fatal(err)
	}
	return resident * os.Getpagesize() >> 20
}
