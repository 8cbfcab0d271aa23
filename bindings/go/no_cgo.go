//go:build !cgo

package cookiestore

// The package calls a C library: it is built with cgo, which needs a C compiler and CGO_ENABLED=1.
const _ = cookiestore_needs_cgo_and_a_C_compiler
