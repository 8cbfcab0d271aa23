//go:build cgo && go1.23

package cookiestore

import "net/http"

// hasQuoted is whether http.Cookie has the fields Quoted and Partitioned.
const hasQuoted = true

func quotedAndPartitioned(cookie *http.Cookie) (quoted, partitioned bool) {
	return cookie.Quoted, cookie.Partitioned
}

func setQuoted(cookie *http.Cookie, quoted bool) { cookie.Quoted = quoted }
