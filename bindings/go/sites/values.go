package sites

import (
	"bytes"
	"context"
	"sync"
)

// Values is a store of values by key. Goroutines may share it. Whatever has a compare-and-set can be one. A value that is nil
// stands for none, and an empty one that is not nil is a value. No bytes of a value are changed after it was passed or returned.
type Values interface {
	// Get returns the value of a key.
	Get(ctx context.Context, key string) ([]byte, error)

	// Swap replaces the value of a key by another one if it is the old one, and reports whether it was. Other calls happen before
	// this one or after it.
	Swap(ctx context.Context, key string, old, new []byte) (bool, error)

	// Keys returns the keys that have a value, each once, in any order.
	Keys(ctx context.Context) ([]string, error)
}

var _, _, _ Values = (*MemoryValues)(nil), FolderValues(""), RedisValues{}

// MemoryValues are values in memory, for tests. The zero value has none.
type MemoryValues struct {
	mu     sync.Mutex
	values map[string][]byte
}

// Get returns the value of a key. The error is nil.
func (m *MemoryValues) Get(_ context.Context, key string) ([]byte, error) {
	m.mu.Lock()
	defer m.mu.Unlock()
	return m.values[key], nil
}

// Swap replaces the value of a key if it is the old one, and reports whether it was. The error is nil.
func (m *MemoryValues) Swap(_ context.Context, key string, old, new []byte) (bool, error) {
	m.mu.Lock()
	defer m.mu.Unlock()
	if !isSame(m.values[key], old) {
		return false, nil
	}
	if m.values == nil {
		m.values = map[string][]byte{}
	}
	if m.values[key] = new; new == nil {
		delete(m.values, key)
	}
	return true, nil
}

// Keys returns the keys that have a value. The error is nil.
func (m *MemoryValues) Keys(context.Context) (keys []string, err error) {
	m.mu.Lock()
	defer m.mu.Unlock()
	for key := range m.values {
		keys = append(keys, key)
	}
	return keys, nil
}

// isSame reports whether two values are the same, or both none.
func isSame(a, b []byte) bool { return (a == nil) == (b == nil) && bytes.Equal(a, b) }
