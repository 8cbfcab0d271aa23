package sites

import (
	"context"
	"errors"
	"fmt"
	"hash/crc32"
	"io/fs"
	"net/url"
	"os"
	"path/filepath"
	"strings"
	"syscall"
)

// FolderValues are values in the files of the folder of this name, which processes of one machine may share. The first write
// creates it.
//
// The value of example.com is the file example.com.json. Characters other than ASCII letters, digits and -._~ are escaped with %,
// and a long name is split into folders. Only the owner can read the files. A file is replaced at once: a crash, also of the
// machine, leaves the old one or the new one whole, and maybe a file that ends in .new, which the next writer of that file
// replaces. Files that end in .lock are locked, by flock(2), while one is written. They stay. Python's FolderValues has the same
// files.
//
// A call that writes waits for the lock, whatever its context.
type FolderValues string

const (
	locks       = 64  // how many files are for locks
	longestName = 200 // of a file, without its suffix
	suffix      = ".json"
)

// Get returns the value of a key. Errors are those of os.ReadFile.
func (f FolderValues) Get(_ context.Context, key string) ([]byte, error) {
	value, err := os.ReadFile(f.path(key))
	if err != nil {
		return nil, unlessMissing(err)
	}
	return value, nil
}

// Swap replaces the value of a key if it is the old one, and reports whether it was. Errors are those of package os and of flock.
func (f FolderValues) Swap(ctx context.Context, key string, old, new []byte) (bool, error) {
	lock, err := f.lock(key)
	if err != nil {
		return false, err
	}
	defer lock.Close()
	defer syscall.Flock(int(lock.Fd()), syscall.LOCK_UN) // a forked child may have a copy of the descriptor
	value, err := f.Get(ctx, key)
	if err != nil || !isSame(value, old) {
		return false, err
	}
	switch {
	case new != nil:
		err = replace(f.path(key), new)
	case old != nil:
		err = os.Remove(f.path(key))
	}
	return err == nil, err
}

// Keys returns the keys that have a value. Errors are those of filepath.WalkDir.
func (f FolderValues) Keys(ctx context.Context) (keys []string, err error) {
	folder := filepath.Clean(string(f))
	err = filepath.WalkDir(folder, func(path string, entry fs.DirEntry, err error) error {
		if err != nil {
			return unlessMissing(err)
		}
		if entry.IsDir() || !strings.HasSuffix(path, suffix) {
			return ctx.Err()
		}
		name, err := filepath.Rel(folder, path)
		if err != nil {
			return err
		}
		name = strings.ReplaceAll(strings.TrimSuffix(name, suffix), "+/", "")
		if key, err := url.PathUnescape(name); err == nil && f.path(key) == path {
			keys = append(keys, key)
		}
		return ctx.Err()
	})
	return keys, err
}

// path returns the name of the file of a key. No escaped name has a plus sign.
func (f FolderValues) path(key string) string {
	folder, name := string(f), strings.ReplaceAll(url.QueryEscape(key), "+", "%20")
	for len(name) > longestName {
		folder, name = filepath.Join(folder, name[:longestName]+"+"), name[longestName:]
	}
	return filepath.Join(folder, name+suffix)
}

// lock returns the locked file of a key, which it shares with others.
func (f FolderValues) lock(key string) (*os.File, error) {
	name := fmt.Sprintf("%d.lock", crc32.ChecksumIEEE([]byte(key))%locks)
	if err := os.MkdirAll(filepath.Clean(string(f)), 0o700); err != nil {
		return nil, err
	}
	lock, err := os.OpenFile(filepath.Join(string(f), name), os.O_RDWR|os.O_CREATE, 0o600)
	if err != nil {
		return nil, err
	}
	err = syscall.EINTR
	for err == syscall.EINTR {
		err = syscall.Flock(int(lock.Fd()), syscall.LOCK_EX)
	}
	if err != nil {
		lock.Close()
		return nil, &fs.PathError{Op: "flock", Path: lock.Name(), Err: err}
	}
	return lock, nil
}

// replace replaces a file while its lock is held.
func replace(path string, value []byte) error {
	if err := os.MkdirAll(filepath.Dir(path), 0o700); err != nil {
		return err
	}
	file, err := os.OpenFile(path+".new", os.O_WRONLY|os.O_CREATE|os.O_TRUNC, 0o600)
	if err != nil {
		return err
	}
	defer file.Close()
	if _, err := file.Write(value); err != nil {
		return err
	}
	if err := file.Sync(); err != nil {
		return err
	}
	return os.Rename(file.Name(), path)
}

// unlessMissing returns the error, or nil if a file does not exist.
func unlessMissing(err error) error {
	if errors.Is(err, fs.ErrNotExist) {
		return nil
	}
	return err
}
