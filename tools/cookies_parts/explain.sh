# shellcheck shell=bash disable=SC2154
# Tests `cookies explain`. tools/cookies sources it.

# The cookies of a site, of its hosts and of those above them, and one of another site.
lines "$first" 'shop.a.example|FALSE|/|FALSE|0|host|1' '.a.example|TRUE|/d|FALSE|0|domain|1' '#HttpOnly_.a.example|TRUE|/d|TRUE|0|both|1' \
    '.a.example|TRUE|/D|FALSE|0|path|1' '.a.example|TRUE|/|TRUE|0|secure|1' '#HttpOnly_.a.example|TRUE|/|FALSE|0|http|1' \
    '.a.example|TRUE|/|FALSE|1767225600|expired|1' 'a.example|FALSE|/|FALSE|0|above|1' '.x.shop.a.example|TRUE|/|FALSE|0|below|1' \
    'news.a.example|FALSE|/|FALSE|0|beside|1' '.example|TRUE|/|FALSE|0|top|1' 'b.example|FALSE|/|FALSE|0|other|1' > site.txt

# explains EXPECTED WORD..: explains the cookies of site.txt; a line `NAME SENT` is expected for each, in the order of the names.
explains() {
    runs explain "$now" "${@:2}" site.txt
    if [ "$status" = 0 ] && [ ! -s "$temp/stderr" ] && [ "$(sed 1d "$temp/stdout" | awk -F '  +' '{ print $3, $6 }' | sort)" = "$1" ]; then
        pass
    else
        fail "explain ${*:2}: FAILED with status $status" "$temp/stdout" "$temp/stderr"
    fi
}

mismatch='no: domain does not match'
insecure='no: Secure cookie, but the URL is not secure'
explains "above $mismatch
below $mismatch
beside $mismatch
both $insecure
domain yes
expired no: expired
host yes
http yes
path no: path does not match
secure $insecure
top yes" "$page"
explains "above $mismatch
below $mismatch
beside $mismatch
both yes
domain yes
expired no: expired
host yes
http yes
path no: path does not match
secure yes
top no: domain is a public suffix" --suffixes com.dat "${page/http/https}"
explains "above $mismatch
below $mismatch
beside $mismatch
both no: path does not match
domain no: path does not match
expired no: expired
host yes
http no: HttpOnly cookie, but the URL is not an HTTP one
path no: path does not match
secure $insecure
top yes" ftp://shop.a.example/
# Without a list, the site of a host is its last two labels; below a public suffix of a list each name has a site of its own.
explains "other yes
top yes" http://b.example/
explains '' data:x
explains "above $mismatch
beside yes
both no: path does not match
domain no: path does not match
expired no: expired
http no: domain is a public suffix
path no: path does not match
secure $insecure
top no: domain is a public suffix" --suffixes list.dat http://news.a.example/

# The table, with what moves the cursor escaped.
lines "$first" 'a.example|FALSE|/|FALSE|0|a|1' > one.txt
prints 'DOMAIN     PATH  NAME  EXPIRES  FLAGS  SENT
a.example  /     a     session  -      yes' explain "$now" http://a.example/ one.txt
prints '' convert --from jsonl --to json - escaped.json <<< '{"raw_cookie":"a\u001b=1","path":["/",false],"domain":{"HostOnly":"a.example"},"expires":"SessionEnd"}'
prints 'DOMAIN     PATH  NAME     EXPIRES  FLAGS  SENT
a.example  /     a\u{1b}  session  -      yes' explain "$now" http://a.example/ escaped.json

# What --strict leaves out of a header.
explained=$("$program" explain "$now" --strict https://a.example/ prefixes.txt | sed 1d | awk -F '  +' '{ print $3, $6 }' | sort) || true
[ "$explained" = '__Host-a yes
__Host-b no: lacks what the prefix of its name demands
__Secure-c no: lacks what the prefix of its name demands' ] && pass || fail 'explain --strict: FAILED' <(echo "$explained")

# Under --strict a name below localhost is this machine, whose Secure cookies are sent over http.
lines "$first" 'x.localhost|FALSE|/|TRUE|0|a|1' > local.txt
prints 'a=1' header "$now" --strict http://x.localhost/ local.txt
prints 'DOMAIN       PATH  NAME  EXPIRES  FLAGS   SENT
x.localhost  /     a     session  secure  yes' explain "$now" --strict http://x.localhost/ local.txt

# The cookies with yes are those of the header.
for words in "$page" "--suffixes com.dat ${page/http/https}" "--suffixes list.dat http://news.a.example/" "--strict --cross-site ${page/http/https}"; do
    # shellcheck disable=SC2086
    runs header "$now" $words site.txt
    sent=$(sed 's/; /\n/g' "$temp/stdout" | sed 's/=1$//' | sort)
    # shellcheck disable=SC2086
    runs explain "$now" $words site.txt
    [ "$sent" = "$(awk -F '  +' '$6 == "yes" { print $3 }' "$temp/stdout" | sort)" ] && pass || fail "explain $words: FAILED: not the cookies of header" "$temp/stdout"
done

# What --strict --cross-site leaves out of a header, and a response may not set.
prints '' convert --from jsonl --to json - same_site.json << 'END'
{"raw_cookie":"a=1; SameSite=Strict","path":["/",false],"domain":{"HostOnly":"a.example"},"expires":"SessionEnd"}
{"raw_cookie":"b=1; SameSite=None; Secure","path":["/",false],"domain":{"HostOnly":"a.example"},"expires":"SessionEnd"}
{"raw_cookie":"c=1","path":["/",false],"domain":{"HostOnly":"a.example"},"expires":"SessionEnd"}
END
prints 'b=1' header "$now" --strict --cross-site https://a.example/ same_site.json
prints 'DOMAIN     PATH  NAME  EXPIRES  FLAGS                 SENT
a.example  /     a     session  samesite=strict       no: cross-site request, and the cookie is not SameSite=None
a.example  /     b     session  secure,samesite=none  yes
a.example  /     c     session  -                     no: cross-site request, and the cookie is not SameSite=None' explain "$now" --strict --cross-site https://a.example/ same_site.json

# A header value: what is stored, or why nothing is.
escape=$'\033'
prints 'stored
DOMAIN      PATH  NAME  VALUE  EXPIRES               FLAGS
.a.example  /d    id    1      2026-01-01T00:01:00Z  secure' explain "$now" https://shop.a.example/d/page --set-cookie 'id=1; domain=.A.example; Max-Age=60; Secure'
while IFS='|' read -r url value message parsed; do
    # shellcheck disable=SC2086
    prints "rejected: $message${parsed:+
parsed as: $parsed}" explain "$now" $url --set-cookie "$value"
done <<END
$page|id=1; Domain=b.example; path=/|request-uri does not domain-match the cookie|id=1; Path=/; Domain=b.example
$page|id=1; max-age=0|attempted to utilize an Expired Cookie|id=1; Max-Age=0
ftp://a.example/|id=1; httponly|request-uri is not an http scheme but HttpOnly attribute set|id=1; HttpOnly
data:x|id=1|request-uri is not a relative scheme; cannot determine host|id=1
$page|=1|unable to parse string as cookie::Cookie|
--suffixes list.dat $page|id=1; Domain=a.example|domain-attribute value is a public suffix|id=1; Domain=a.example
--strict https://a.example/|__Host-a=1|cookie lacks what the prefix of its name demands|__Host-a=1
--strict https://a.example/|a=1; SameSite=None|cookie has SameSite=None but is not Secure|a=1; SameSite=None
--strict https://a.example/|__Host-a=1; Domain=a.example; Domain=|cookie lacks what the prefix of its name demands|__Host-a=1
$page|a=$escape; Max-Age=0|attempted to utilize an Expired Cookie|a=\u{1b}; Max-Age=0
--strict --cross-site https://a.example/|a=1; SameSite=Lax|cookie of a cross-site response is not SameSite=None|a=1; SameSite=Lax
END
for words in "explain $page" "explain $page --set-cookie a=1 one.txt" "explain --format json $page --set-cookie a=1" "explain --only-listed $page one.txt" "explain --cross-site $page one.txt"; do
    # shellcheck disable=SC2086
    runs $words
    [ "$status" = 2 ] && [ ! -s "$temp/stdout" ] && [ "$(wc -l < "$temp/stderr")" = 1 ] && pass || fail "$words: FAILED with status $status" "$temp/stderr"
done
