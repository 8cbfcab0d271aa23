//go:build cgo && !go1.23

package cookiestore

import "net/http"

// hasQuoted is whether http.Cookie has the fields Quoted and Partitioned.
const hasQuoted = false

func quotedAndPartitioned(*http.Cookie) (quoted, partitioned bool) { return false, false }

func setQuoted(*http.Cookie, bool) {}
