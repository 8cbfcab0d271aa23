# shellcheck shell=bash disable=SC2154
# Tests large input. tools/cookies sources it.

# A file of 2 MB with 6,000 lines, and a value of 4 KB.
for number in {1..6000}; do printf 'h%d.example\tFALSE\t/\tFALSE\t0\tname%d\t%0400d\n' $((number % 80)) "$number" "$number"; done > large.txt
cp large.txt kept.txt
large=$(printf '%04096d' 7)
prints '' set "$now" http://h7.example/ "large=$large" large.txt
runs header "$now" http://h7.example/ large.txt
[ "$(tr ';' '\n' < "$temp/stdout" | sed 's/^ //')" = "$({ sed -n '/^h7\.example\t/p' kept.txt | cut -f 6,7 | tr '\t' '=' && echo "large=$large"; })" ] && pass || fail 'large.txt: FAILED: its header' "$temp/stderr"
prints '' remove large.txt h7.example / large
cmp -s large.txt kept.txt && pass || fail 'large.txt: FAILED: an edit changed it'
prints '' convert large.txt large.json
prints '' convert large.json large.ron
prints '' convert large.ron again.txt
sed 1d again.txt | sort | cmp -s - <(sort kept.txt) && pass || fail 'large.json, large.ron: FAILED: they have other cookies'

# A file of 6,000 lines: session cookies, expired ones and others. table.txt has its table, with `|` between the cells.
awk 'BEGIN { for (n = 1; n <= 6000; n++) printf "h%d.example\tFALSE\t/\tFALSE\t%s\tname%d\tv%d\n", n % 80, n % 3 ? (n % 3 == 1 ? "1" : "4102444800") : "0", n, n }' > many.txt
awk -F '\t' '{ print $1 "|" $3 "|" $6 "|" $7 "|" ($5 == "0" ? "session" : $5 == "1" ? "1970-01-01T00:00:01Z (expired)" : "2100-01-01T00:00:00Z") "|-" }' many.txt | sort > table.txt
cp many.txt kept.txt

# has_table WORD..: runs the program, which must print the table of many.txt.
has_table() {
    runs "$@"
    [ "$status" = 0 ] && [ "$(head -n 1 "$temp/stdout" | tr -s ' ')" = 'DOMAIN PATH NAME VALUE EXPIRES FLAGS' ] && sed '1d; s/   */|/g' "$temp/stdout" | sort | cmp -s - table.txt && pass || fail "$*: FAILED with status $status" <(head -n 3 "$temp/stdout") "$temp/stderr"
}

# has_rows FILE: the file must have the cookies of many.txt in lines after the first, in some order.
has_rows() { sed 1d "$1" | sort | cmp -s - <(sort many.txt) && pass || fail "$1: FAILED: it has other cookies"; }

has_table show "$now" many.txt
prints '' convert many.txt many.jsonl
prints '' convert many.jsonl many-back.txt
has_rows many-back.txt
runs show --json many.txt
cp "$temp/stdout" many.json
python3 - <<'END' && pass || fail 'many.txt: FAILED: show --json, or convert to jsonl'
import json
wanted = []
for line in open('many.txt'):
    domain, _, path, _, expiry, name, value = line.rstrip('\n').split('\t')
    expires = {'0': 'SessionEnd', '1': {'AtUtc': '1970-01-01T00:00:01Z'}, '4102444800': {'AtUtc': '2100-01-01T00:00:00Z'}}[expiry]
    wanted.append({'raw_cookie': f'{name}={value}', 'path': [path, True], 'domain': {'HostOnly': domain}, 'expires': expires})
def in_order(cookies):
    return sorted(json.dumps(cookie, sort_keys=True) for cookie in cookies)
assert in_order(json.load(open('many.json'))) == in_order(wanted)
assert in_order(map(json.loads, open('many.jsonl'))) == in_order(wanted)
END
has_table show "$now" many.jsonl
prints '' purge --domain h7.example many.txt
grep -v '^h7\.example' kept.txt | cmp -s - many.txt && pass || fail 'many.txt: FAILED: purge --domain'
cp kept.txt many.txt
prints '' purge "$now" many.txt
awk -F '\t' '$5 != 1' kept.txt | cmp -s - many.txt && pass || fail 'many.txt: FAILED: purge'
cp kept.txt many.txt
prints '' purge --session many.jsonl
[ "$(grep -c '"SessionEnd"' many.jsonl)" = 0 ] && [ "$(wc -l < many.jsonl)" = 4000 ] && pass || fail 'many.jsonl: FAILED: purge --session'

# 200 malformed lines, and 200 cookies that a cookies.txt cannot represent.
awk '{ print } NR % 30 == 0 { print "malformed" }' many.txt > malformed.txt
awk '$0 == "malformed" { print "cookies: malformed.txt: line " NR " is not a cookie" }' malformed.txt > notes.txt
has_table show "$now" --skip-malformed malformed.txt
cmp -s notes.txt "$temp/stderr" && [ "$(wc -l < notes.txt)" = 200 ] && pass || fail 'malformed.txt: FAILED: show' "$temp/stderr"
runs convert --skip-malformed malformed.txt formed.txt
[ "$status" = 0 ] && cmp -s notes.txt "$temp/stderr" && pass || fail 'malformed.txt: FAILED: convert' "$temp/stderr"
has_rows formed.txt
cp malformed.txt edited.txt
runs purge "$now" edited.txt
[ "$status" = 0 ] && sed 's/malformed.txt/edited.txt/' notes.txt | cmp -s - "$temp/stderr" && awk -F '\t' '$5 != 1' malformed.txt | cmp -s - edited.txt && pass || fail 'malformed.txt: FAILED: purge' "$temp/stderr"
prints '' convert many.txt many.jsonl
for number in {1..200}; do printf '{"raw_cookie":"tab%d=1\\t2","path":["/",true],"domain":{"HostOnly":"a.example"},"expires":"SessionEnd"}\n' "$number"; done >> many.jsonl
fails 1 'represented.txt: cookies.txt cannot represent a cookie' convert many.jsonl represented.txt
runs convert --skip-unrepresentable many.jsonl represented.txt
[ "$status" = 0 ] && [ "$(cat "$temp/stderr")" = 'cookies: represented.txt: cookies left out, since cookies.txt cannot represent them: 200' ] && pass || fail 'many.jsonl: FAILED: its note' "$temp/stderr"
has_rows represented.txt

# A URL of 3 KB, a Set-Cookie header value of 5 KB, with --strict the longest name and value, a list of 400 KB and a header of 100 KB.
path=/$(printf '%03000d' 0)
printf 'a.example\tFALSE\t%s\tFALSE\t0\tlong\t1\n' "$path" > path.txt
prints long=1 header "$now" "http://a.example$path/page" path.txt
prints '' header "$now" "http://a.example${path%0}" path.txt
for row in 4096 '4093 --strict'; do
    read -r length strict <<< "$row"
    rm -f value.txt
    value=$(printf "%0${length}d" 7)
    # shellcheck disable=SC2086
    prints '' set "$now" $strict http://a.example/ "big=$value; Path=/$(printf '%01000d' 0); Max-Age=60; HttpOnly" value.txt
    has value.txt "$first" "#HttpOnly_a.example|FALSE|/$(printf '%01000d' 0)|FALSE|1767225660|big|$value"
    prints "big=$value" header "$now" "http://a.example/$(printf '%01000d' 0)" value.txt
done
fails 1 'cookie rejected: name and value are longer than 4096 bytes' set "$now" --strict "$page" "big=${value}1; Max-Age=60" value.txt
for number in {1..25000}; do echo "suffix$number.example"; done > rules.dat
[ "$(wc -c < rules.dat)" -gt 400000 ] && pass || fail 'rules.dat: FAILED: it is small'
for number in 1 12500 25000; do
    fails 1 'cookie rejected: domain-attribute value is a public suffix' set "$now" --suffixes rules.dat "http://www.suffix$number.example/" "c=1; Domain=suffix$number.example" value.txt
    prints '' set "$now" --suffixes rules.dat "http://www.a.suffix$number.example/" "c=1; Domain=a.suffix$number.example" value.txt
    prints 'c=1' header "$now" --suffixes rules.dat "http://www.a.suffix$number.example/" value.txt
done
for number in {1..250}; do printf 'a.example\tFALSE\t/\tFALSE\t0\tname%d\t%0400d\n' "$number" "$number"; done > wide.txt
runs header "$now" http://a.example/ wide.txt
[ "$(wc -c < "$temp/stdout")" -gt 100000 ] && [ "$(sed 's/; /\n/g' "$temp/stdout")" = "$(cut -f 6,7 wide.txt | tr '\t' '=')" ] && pass || fail 'wide.txt: FAILED: its header' "$temp/stderr"
