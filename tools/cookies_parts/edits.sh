# shellcheck shell=bash disable=SC2154
# Tests that edits of a cookies.txt change the lines of the cookies that they name, and no other byte of the file.
# tools/cookies sources it.

# edits EXPECTED WORD..: runs the program on a copy of odd.txt, which must become what is expected, to the byte.
edits() {
    cp odd.txt edited.txt
    runs "${@:2}"
    printf '%b' "$1" > expected.txt
    if [ "$status" = 0 ] && [ "$(cat "$temp/stderr")" = 'cookies: edited.txt: line 5 is not a cookie' ] && cmp -s expected.txt edited.txt; then
        pass
    else
        diff <(cat -A expected.txt) <(cat -A edited.txt) > "$temp/diff" || true
        fail "${*:2}: FAILED with status $status" "$temp/stderr" "$temp/diff"
    fi
}
python='# mine\r\n\n#HttpOnly_.a.example\tTRUE\t/\tFALSE\t\tpython\t1\r\n'
twice='a.example\tFALSE\t/\tFALSE\t1767225601\ttwice\t1\r\n'
middle='broken line\r\n  b.example:8080\tFALSE\t/\tFALSE\t0\twget\t1 \t\r\n$python\n # curl\n'
again='.a.example\tFALSE\t/\tFALSE\t1\ttwice\t2\n'
last='::1\tFALSE\t"/q"\tFALSE\t-1\tz\t'
printf '%b' "$python$twice$middle$again$last" > odd.txt
edits "$python$middle$last" remove edited.txt a.example / twice
edits "$python$middle$last" purge "$now" edited.txt
edits "$python$twice$middle$again" purge --domain '[::1]' edited.txt
edits "# mine\r\n\n$middle$last" purge --domain .a.example edited.txt
edits "# mine\r\n\n${twice}broken line\r\n\$python\n # curl\n$again$last" purge --session edited.txt
edits "${python}a.example\tFALSE\t/\tFALSE\t\ttwice\t1\r\n$middle$last" set "$now" http://a.example/ 'twice=1' edited.txt
edits "$python$twice$middle$again$last\r\nc.example\tFALSE\t/\tFALSE\t\tnew\t1\r\n" set "$now" http://c.example/ 'new=1' edited.txt
edits "$python$twice$middle$again::1\tFALSE\t/q\tFALSE\t\tz\t2\r\n" set "$now" 'http://[::1]/q/' 'z=2; Path=/q' edited.txt
fails 1 'odd.txt: line 5 is not a cookie; --skip-malformed leaves it out' show odd.txt
fails 1 'odd.txt: line 5 is not a cookie; --skip-malformed leaves it out' convert odd.txt odd.json
for words in 'show odd.txt' 'header http://b.example/ odd.txt' 'convert odd.txt odd.json'; do
    # shellcheck disable=SC2086
    runs "${words%% *}" "$now" --skip-malformed ${words#* }
    [ "$status" = 0 ] && [ "$(cat "$temp/stderr")" = 'cookies: odd.txt: line 5 is not a cookie' ] && pass || fail "$words --skip-malformed: FAILED with status $status" "$temp/stderr"
done
lines 'a.example|FALSE|/|FALSE|0|a|1' '.a.example|TRUE|/|FALSE|0|b|1' > lines.txt
prints '' purge "$now" lines.txt
has lines.txt 'a.example|FALSE|/|FALSE|0|a|1' '.a.example|TRUE|/|FALSE|0|b|1'
: > empty.txt
prints '' set "$now" http://a.example/ a=1 empty.txt
has empty.txt "$first" 'a.example|FALSE|/|FALSE|0|a|1'

# A domain may be spelled as a line spells it. `DOMAIN NAME..`: the cookies of the domain.
hosts=('::1|FALSE|/|FALSE|0|a|1' '[::1].local|FALSE|/|FALSE|0|b|1' 'c.example:8080|FALSE|/|FALSE|0|c|1' 'localhost.local|FALSE|/|FALSE|0|d|1'
    'UP.example|FALSE|/|FALSE|0|e|1' '.UP.example|TRUE|/f|FALSE|0|f|1')
for row in '::1 a b' '[::1] a b' '[::1].local a b' '::1.local' 'c.example:8080 c' 'c.example:443 c' 'C.EXAMPLE c' 'localhost.local d' 'LocalHost d' \
    '.localhost d' 'UP.example e f' 'up.example e f' '.UP.example e f' '..up.example' 'example' 'c.example.local'; do
    read -r domain names <<< "$row"
    lines "$first" "${hosts[@]}" > hosts.txt
    prints '' purge --domain "$domain" hosts.txt
    lines "$first" "${hosts[@]}" | awk -F '\t' -v names=" $names " '!NF || NF < 7 || !index(names, " " $6 " ")' > wanted.txt
    cmp -s wanted.txt hosts.txt && pass || fail "purge --domain $domain: FAILED" hosts.txt
    for name in $names; do
        lines "$first" "${hosts[@]}" > hosts.txt
        prints '' remove hosts.txt "$domain" "$([ "$name" = f ] && echo /f || echo /)" "$name"
        awk -F '\t' -v name="$name" 'NF < 7 || $6 != name' <(lines "$first" "${hosts[@]}") | cmp -s - hosts.txt && pass || fail "remove hosts.txt $domain $name: FAILED" hosts.txt
    done
    [ -n "$names" ] || fails 1 'hosts.txt: no such cookie' remove hosts.txt "$domain" / a
done

# A domain that a cookie has is that one, as lists may have any.
for domain in localhost localhost.local up.example UP.example '[::1]'; do
    printf '{"raw_cookie":"x=1","path":["/",true],"domain":{"HostOnly":"%s"},"expires":"SessionEnd"}\n' "$domain"
done > domains.jsonl
for row in 'localhost localhost' 'localhost.local localhost.local' 'UP.example UP.example' 'Up.Example up.example' '::1 [::1]' 'localhost:80 localhost'; do
    for words in "purge --domain ${row% *} left.jsonl" "remove left.jsonl ${row% *} / x"; do
        cp domains.jsonl left.jsonl
        # shellcheck disable=SC2086
        prints '' $words
        [ "$(sed -E 's/.*"HostOnly":"([^"]*)".*/\1/' left.jsonl | sort)" = "$(sed -E 's/.*"HostOnly":"([^"]*)".*/\1/' domains.jsonl | grep -vxF -e "${row#* }" | sort)" ] && pass || fail "$words: FAILED" left.jsonl
    done
done

# A directory of odd files: a new cookie comes last, behind the line end that the last line lacks, and removing it leaves the rest.
mkdir odd
printf '# a comment alone' > odd/comment.txt
printf '\n \t\n\v\f\n' > odd/blank.txt
printf '\r\n\r\n# CRLF' > odd/crlf.txt
printf '# LF first\n\r\n' > odd/lf.txt
printf 'malformed\nb.example\tFALSE\n\t\n' > odd/malformed.txt
printf '\357\273\277# a byte order mark\n' > odd/mark.txt
printf '$ Python\n  #HttpOnly_.a.example\tTRUE\t/\tFALSE\t\tx\t1\t\r\n' > odd/python.txt
printf 'Set-Cookie: a=1; Domain=a.example\nset-cookie: b=2' > odd/headers.txt
printf 'a.example\tFALSE\t"/"\tFALSE\t99999999999999\tquoted\t\302\240v\n.b.example\tTRUE\tTRUE\t0\tshort' > odd/curl.txt
for file in odd/*; do
    cp "$file" old.txt
    end=$'\n'
    ! head -n 1 old.txt | grep -q $'\r$' || end=$'\r\n'
    session=0
    [ "$file" != odd/python.txt ] || session=
    { cat old.txt && { [ -z "$(tail -c 1 old.txt)" ] || printf '%s' "$end"; }; } > ended.txt
    { cat ended.txt && printf 'new.example\tFALSE\t/\tFALSE\t%s\tnew\t1%s' "$session" "$end"; } > wanted.txt
    runs set "$now" http://new.example/ new=1 "$file"
    [ "$status" = 0 ] && cmp -s wanted.txt "$file" && pass || fail "$file: FAILED: set" "$temp/stderr"
    runs remove "$file" new.example / new
    [ "$status" = 0 ] && cmp -s ended.txt "$file" && pass || fail "$file: FAILED: remove" "$temp/stderr"
done

lines "$first" 'Set-Cookie: a=1; Domain=a.example' 'Set-Cookie: b=1; Domain=a.example; Path=/b' 'Set-Cookie: c=1; Domain=a.example' > header.txt
prints '' set "$now" http://a.example/ 'a=2; Domain=a.example; Path=/' header.txt
prints '' remove header.txt .a.example /b b
has header.txt "$first" '.a.example|TRUE|/|FALSE|0|a|2' 'Set-Cookie: c=1; Domain=a.example'
