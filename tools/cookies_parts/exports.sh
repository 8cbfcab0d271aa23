# shellcheck shell=bash disable=SC2154
# Tests exports of browsers' extensions and of Playwright. tools/cookies sources it.

# With the members that Cookie-Editor writes from Chromium and from Firefox; the last six have what other extensions leave out or write.
cat > extension.json << 'END'
[
    {"domain": "a.example", "hostOnly": true, "httpOnly": false, "name": "a", "path": "/", "sameSite": null, "secure": false,
     "session": true, "storeId": null, "value": "1"},
    {"domain": ".a.example", "expirationDate": 1767225660.5, "hostOnly": false, "httpOnly": true, "name": "b", "path": "/d",
     "sameSite": "no_restriction", "secure": true, "session": false, "storeId": "0", "value": "\"2 3\"", "id": 1},
    {"domain": "a.example", "expirationDate": 1767225660, "hostOnly": false, "httpOnly": false, "name": "c", "path": "/",
     "sameSite": "lax", "secure": false, "session": false, "storeId": null, "value": "3"},
    {"name": "d", "value": "", "domain": "a.example", "hostOnly": true, "path": "/", "secure": true, "httpOnly": false,
     "sameSite": "strict", "session": true, "firstPartyDomain": "", "partitionKey": null, "storeId": "firefox-default"},
    {"domain": "A.Example", "name": "e", "value": "gr\u00fcn=\u20ac", "sameSite": "unspecified"},
    {"domain": ".A.example", "name": "f", "value": "6", "path": "", "sameSite": "no_restriction"},
    {"domain": "[::1]", "name": "g", "value": "7", "partitionKey": ""},
    {"domain": "b.example", "name": "h", "value": "8", "partitionKey": {"topLevelSite": "https://a.example"}},
    {"domain": "b.example", "name": "i", "value": "9", "firstPartyDomain": "a.example"},
    {"domain": "a.example", "name": "f", "value": "9", "path": "/"}
]
END
# With the members of Playwright's context.storage_state().
cat > state.json << 'END'
{"cookies": [
    {"name": "a", "value": "1", "domain": "a.example", "path": "/", "expires": -1, "httpOnly": false, "secure": false, "sameSite": "Lax"},
    {"name": "b", "value": "2", "domain": ".a.example", "path": "/d", "expires": 1767225660.987654, "httpOnly": true, "secure": true,
     "sameSite": "None"},
    {"name": "c", "value": "3", "domain": "a.example", "path": "/", "expires": 1e300, "httpOnly": false, "secure": false, "sameSite": "Strict"},
    {"name": "d", "value": "4", "domain": "a.example", "path": "/", "expires": 1, "httpOnly": false, "secure": false, "sameSite": "Lax"}
], "origins": [{"origin": "https://a.example", "localStorage": [{"name": "key", "value": "value"}]}]}
END
runs show "$now" --format browser extension.json
[ "$status" = 0 ] && [ "$(cat "$temp/stderr")" = 'cookies: extension.json: cookies left out, since they are partitioned: 2' ] && [ "$(cat "$temp/stdout")" = \
'DOMAIN      PATH  NAME  VALUE   EXPIRES               FLAGS
a.example   /     a     1       session               -
.a.example  /     c     3       2026-01-01T00:01:00Z  samesite=lax
a.example   /     d             session               secure,samesite=strict
a.example   /     e     grün=€  session               -
a.example   /     f     9       session               -
.a.example  /d    b     "2 3"   2026-01-01T00:01:00Z  secure,httponly,samesite=none
[::1]       /     g     7       session               -' ] && pass || fail 'extension.json: FAILED' "$temp/stdout" "$temp/stderr"
prints 'DOMAIN      PATH  NAME  VALUE  EXPIRES                         FLAGS
a.example   /     a     1      session                         samesite=lax
a.example   /     c     3      9999-12-31T23:59:59Z            samesite=strict
a.example   /     d     4      1970-01-01T00:00:01Z (expired)  samesite=lax
.a.example  /d    b     2      2026-01-01T00:01:00Z            secure,httponly,samesite=none' show "$now" --format playwright state.json
prints 'b=2; a=1; c=3' header "$now" --format playwright https://a.example/d state.json
prints '' convert --from playwright --to json - state-again.json < state.json
prints "$("$program" show "$now" --format playwright state.json)" show "$now" state-again.json
runs convert --from playwright state.json state.txt
has state.txt "$first" 'a.example|FALSE|/|FALSE|0|a|1' 'a.example|FALSE|/|FALSE|253402300799|c|3' 'a.example|FALSE|/|FALSE|1|d|4' \
    '#HttpOnly_.a.example|TRUE|/d|TRUE|1767225660|b|2'
for format in browser playwright; do
    for words in "convert --to $format state.txt unwritten.json" "set --format $format $page a=1 unwritten.json" "remove --format $format state.json a.example / a" "purge --format $format state.json"; do
        # shellcheck disable=SC2086
        runs $words
        [ "$status" = 2 ] && [ ! -e unwritten.json ] && [ "$(wc -l < "$temp/stderr")" = 1 ] && pass || fail "$words: FAILED with status $status" "$temp/stderr"
    done
done

# Items that are not cookies, by what a cookie's members are replaced with.
while read -r members; do
    printf '{"cookies": [{"domain": "a.example", "name": "x", "value": "1", %s}, {"domain": "b.example", "name": "y", "value": "2"}]}' "$members" > item.json
    fails 1 'item.json: item 1 is not a cookie; --skip-malformed leaves it out' show --format playwright item.json
    runs show "$now" --format playwright --skip-malformed item.json
    [ "$status" = 0 ] && [ "$(cat "$temp/stderr")" = 'cookies: item.json: item 1 is not a cookie' ] && [ "$(sed 1d "$temp/stdout" | tr -s ' ')" = 'b.example / y 2 session -' ] &&
        pass || fail "item.json: FAILED: $members" "$temp/stdout" "$temp/stderr"
done << 'END'
"expires": "soon"
"expires": true
"value": "1; Domain=example"
"value": "\u00a01"
"value": null
"path": "d"
"path": 1
"name": "x=y"
"name": ""
"name": null
"domain": null
"domain": ""
"domain": "."
"domain": "..a.example"
"domain": "gr\u00fcn.example"
"domain": "1.2.3.300"
"domain": "a.example/b"
"domain": "a.example:80"
"secure": 1
"httpOnly": "false"
"hostOnly": "true"
END

# Files that are not exports.
extension_help='not a list, as extensions of browsers export cookies' playwright_help='not a storage state of Playwright'
while IFS='|' read -r format text message; do
    printf '%s' "$text" > export.json
    fails 1 "export.json: $message" show --format "$format" export.json
done << END
browser|{"cookies": []}|$extension_help
browser|["a=1"]|item 1 is not a cookie; --skip-malformed leaves it out
browser|[null]|item 1 is not a cookie; --skip-malformed leaves it out
browser|null|$extension_help
playwright|[]|$playwright_help
playwright|{}|$playwright_help
playwright|{"cookies": {}}|$playwright_help
playwright|{"cookies": [[]]}|item 1 is not a cookie; --skip-malformed leaves it out
browser||the input is not JSON
playwright|{"cookies": [}|the input is not JSON
END
# Of many items, the first and the last are not cookies.
count=6000
{
    echo '[{}'
    for ((at = 2; at < count; at++)); do echo ",{\"domain\": \"h$at.example\", \"name\": \"n\", \"value\": \"$at\"}"; done
    echo ',{}]'
} > many.json
runs show "$now" --format browser --skip-malformed many.json
[ "$status" = 0 ] && [ "$(cat "$temp/stderr")" = "cookies: many.json: item 1 is not a cookie
cookies: many.json: item $count is not a cookie" ] && [ "$(wc -l < "$temp/stdout")" = $((count - 1)) ] && pass || fail 'many.json: FAILED' "$temp/stderr"

printf '["\377"]' > export.json
fails 1 'export.json: the input is not UTF-8' show --format browser export.json
echo '[]' > export.json
prints 'DOMAIN  PATH  NAME  VALUE  EXPIRES  FLAGS' show --format browser export.json
