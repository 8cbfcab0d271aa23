package main

import (
	"net/http"
	"net/http/httptest"
	"os"
	"path/filepath"
	"testing"
)

// The file is replaced by one that only its owner can read, also if a URL cannot be fetched. It has session cookies too.
func TestFileIsReplaced(t *testing.T) {
	server := httptest.NewServer(http.HandlerFunc(func(w http.ResponseWriter, r *http.Request) {
		w.Header().Set("Set-Cookie", "visits=1; Max-Age=3600")
		w.Header().Add("Set-Cookie", "session=2")
	}))
	defer server.Close()
	name := filepath.Join(t.TempDir(), "cookies.json")
	if err := os.WriteFile(name, []byte("[]"), 0o644); err != nil {
		t.Fatal(err)
	}
	old := stat(t, name)
	if err := run(name, []string{server.URL}); err != nil {
		t.Fatal(err)
	}
	saved := stat(t, name)
	if saved.Mode() != 0o600 || os.SameFile(old, saved) {
		t.Errorf("mode %v, want 0600 and another file than before", saved.Mode())
	}
	jar, err := load(name)
	if err != nil || jar.Len() != 2 {
		t.Fatalf("the file has not the two cookies: %v", err)
	}

	if err := run(name, []string{server.URL, "http://127.0.0.1:0/"}); err == nil {
		t.Error("port 0 was fetched")
	}
	if os.SameFile(saved, stat(t, name)) {
		t.Error("the file was not replaced after an error")
	}
	if files, err := os.ReadDir(filepath.Dir(name)); err != nil || len(files) != 1 {
		t.Errorf("%d files, %v, want 1", len(files), err)
	}
}

func stat(t *testing.T, name string) os.FileInfo {
	t.Helper()
	info, err := os.Stat(name)
	if err != nil {
		t.Fatal(err)
	}
	return info
}
