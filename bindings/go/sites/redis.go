package sites

import (
	"context"
	"fmt"
	"regexp"
	"strings"
)

// RedisValues are values in Redis: the value of example.com is that of the key cookies:example.com. Of a cluster, Keys has those of
// one node.
type RedisValues struct {
	// Do sends a command, whose arguments are strings, and returns the reply: an int64, or a []any of strings, []byte, nil and
	// lists. Several goroutines may call it at once.
	Do func(ctx context.Context, args ...any) (any, error)

	// Prefix is what the names of the keys begin with, or "" for "cookies:".
	Prefix string
}

// swapScript replaces the value of a key. Each value is two arguments: "1" and its bytes, or "" and "" for none. A script is one
// command, which needs no connection of its own, as WATCH would.
const swapScript = `local old, new = ARGV[1] == '1' and ARGV[2], ARGV[3] == '1' and ARGV[4]
if redis.call('GET', KEYS[1]) ~= old then return 0 end
if new then redis.call('SET', KEYS[1], new) elseif old then redis.call('DEL', KEYS[1]) end
return 1`

// Get returns the value of a key by MGET. Errors are those of Do.
func (r RedisValues) Get(ctx context.Context, key string) ([]byte, error) {
	reply, err := r.Do(ctx, "MGET", r.prefix()+key)
	if err != nil {
		return nil, err
	}
	if list, ok := reply.([]any); ok && len(list) == 1 {
		switch value := list[0].(type) {
		case nil:
			return nil, nil
		case string:
			return []byte(value), nil
		case []byte:
			return value, nil
		}
	}
	return nil, unexpected("MGET", reply)
}

// Swap replaces the value of a key by EVAL if it is the old one, and reports whether it was. Errors are those of Do.
func (r RedisValues) Swap(ctx context.Context, key string, old, new []byte) (bool, error) {
	args := []any{"EVAL", swapScript, "1", r.prefix() + key}
	for _, value := range [][]byte{old, new} {
		flag := "1"
		if value == nil {
			flag = ""
		}
		args = append(args, flag, string(value))
	}
	reply, err := r.Do(ctx, args...)
	if err != nil {
		return false, err
	}
	if swapped, ok := reply.(int64); ok {
		return swapped == 1, nil
	}
	return false, unexpected("EVAL", reply)
}

// special are the characters that a pattern of Redis has for others.
var special = regexp.MustCompile(`[*?\[\]\\^]`)

// Keys returns the keys that have a value, with this prefix, by SCAN. Errors are those of Do.
func (r RedisValues) Keys(ctx context.Context) (keys []string, err error) {
	pattern, found := special.ReplaceAllString(r.prefix(), `\$0`)+"*", map[string]bool{} // Redis may return a key twice
	for cursor := "0"; ; {
		reply, err := r.Do(ctx, "SCAN", cursor, "MATCH", pattern, "COUNT", "1000")
		if err != nil {
			return nil, err
		}
		var names []any
		parts, ok := reply.([]any)
		if ok = ok && len(parts) == 2; ok {
			names, ok = parts[1].([]any)
		}
		if !ok {
			return nil, unexpected("SCAN", reply)
		}
		for _, name := range names {
			key := strings.TrimPrefix(fmt.Sprintf("%s", name), r.prefix()) // a string or []byte
			if !found[key] {
				found[key], keys = true, append(keys, key)
			}
		}
		if cursor = fmt.Sprintf("%s", parts[0]); cursor == "0" {
			return keys, nil
		}
	}
}

func (r RedisValues) prefix() string {
	if r.Prefix == "" {
		return "cookies:"
	}
	return r.Prefix
}

func unexpected(command string, reply any) error {
	return fmt.Errorf("sites: Redis returned a %T for %s", reply, command)
}
