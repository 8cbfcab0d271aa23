// Package cookiestore implements a cookie jar for net/http after RFC 6265, over the C library cookie_store.
//
//	jar, err := cookiestore.New(nil)
//	if err != nil {
//		return err
//	}
//	defer jar.Close()
//	client := &http.Client{Jar: jar}
//
// # What net/http does to cookies
//
// The store returns names and values as they were received; Jar.Header has them so. A client of net/http reads and writes
// headers itself:
//
//   - A Set-Cookie header that it cannot read never reaches a jar: one whose name is not a token, or whose value has bytes
//     other than printable ASCII, or a backslash or double quote, except for double quotes around the value.
//   - It reads double quotes around a value as no part of it. Before Go 1.23 they are not sent back.
//   - It sends a value that has a space or a comma in double quotes.
//   - It leaves out, with a message to the log, what a value may not have: bytes other than printable ASCII, semicolons,
//     backslashes and double quotes. Such values can come from Jar.Parse and Load. Those with a control character other than
//     HTAB the jar leaves out itself, with their cookies.
//
// To send the exact header, leave Client.Jar nil, set the header Cookie to the result of Jar.Header, and call Jar.Parse with each
// Set-Cookie header of the response.
package cookiestore
