// Package sites implements a cookie jar for net/http whose cookies are in a store of values by key, such as Redis, which
// processes and machines may share.
//
//	jar, err := sites.New(sites.FolderValues("sites"), nil)
//	if err != nil {
//		return err
//	}
//	defer jar.Close()
//	client := &http.Client{Jar: jar}
//
// Under the rules of browsers and a public suffix list no cookie leaves its outermost site, the root of its host: see
// cookiestore.Jar.Root. So the cookies of a root are a value of their own: a list in JSON, in creation order, which
// cookiestore.Load reads. A call reads the list of one root, and writes it by a compare-and-set if it has changed.
//
// The keys and the values are those of Python's package cookie_store.sites: programs in Go and in Python may share a folder or a
// Redis.
//
// # Redis
//
// RedisValues sends its commands by a function, which the client of a program has. With go-redis:
//
//	values := sites.RedisValues{Do: func(ctx context.Context, args ...any) (any, error) {
//		return client.Do(ctx, args...).Result()
//	}}
package sites
