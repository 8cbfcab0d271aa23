# shellcheck shell=bash disable=SC2154
# Tests files that Firefox ESR 140 and 153 wrote: copied while it ran, and after it had ended. tools/cookies sources it.

# unpacked NAME FILE: writes one of these files.
unpacked() { base64 -d "$root/tools/cookies_parts/firefox/$1.gz.base64" | gzip -d > "$2"; }

# has_rows FILE NOTES ROWS [OPTION]: a file of Firefox must have the rows in a file, and be read with these lines on standard error.
has_rows() {
    runs show "$now" --format firefox "${@:4}" "$1"
    if [ "$status" = 0 ] && [ "$(cat "$temp/stderr")" = "$2" ] && diff "$3" <(sed 1d "$temp/stdout" | tr -s ' ') > "$temp/diff"; then
        pass
    else
        fail "$1 of Firefox: FAILED with status $status" "$temp/stderr" "$temp/diff"
    fi
}

cat > rows-153 <<'END'
www.example.com /dir plain changed 2027-12-01T00:04:59Z -
www.example.com /foo path p 2027-12-01T00:04:57Z -
www.example.com / empty 2027-12-01T00:04:57Z -
www.example.com / httponly h 2027-12-01T00:04:57Z httponly
www.example.com / lax l 2027-12-01T00:04:57Z samesite=lax
www.example.com / strict s 2027-12-01T00:04:57Z samesite=strict
www.example.com / date e 2027-06-30T10:20:30Z -
www.example.com / quoted "q r" 2027-12-01T00:04:57Z -
www.example.com / same host 2027-12-01T00:04:57Z -
www.example.com / utf8 é 2027-12-01T00:04:57Z -
.example.com / domain d 2027-12-01T00:04:57Z -
.example.com / same domain 2027-12-01T00:04:57Z -
localhost / secure s 2027-12-01T00:04:57Z secure
localhost / none n 2027-12-01T00:04:57Z secure,samesite=none
other.test / other o 2027-12-01T00:04:58Z -
END
isolated='cookies left out, since they are of a partition or a container: 1'
unpacked 153-cookies.sqlite cookies.sqlite
unpacked 153-cookies.sqlite-wal cookies.sqlite-wal
has_rows cookies.sqlite "cookies: cookies.sqlite: $isolated" rows-153
# Both files are only read, and without its log this one has no rows.
unpacked 153-cookies.sqlite alone.sqlite
cmp alone.sqlite cookies.sqlite && [ ! -e alone.sqlite-wal ] && pass || fail 'cookies.sqlite of Firefox: FAILED: it was changed'
: > no-rows
has_rows alone.sqlite '' no-rows
unpacked 153-closed.sqlite closed.sqlite
has_rows closed.sqlite "cookies: closed.sqlite: $isolated" rows-153
runs convert --from firefox closed.sqlite firefox.json
runs show "$now" firefox.json
diff rows-153 <(sed 1d "$temp/stdout" | tr -s ' ') > "$temp/diff" && pass || fail 'convert from firefox: FAILED' "$temp/diff"
# In a header the oldest is first.
runs header "$now" --format firefox http://www.example.com/ closed.sqlite
[ "$(cat "$temp/stdout")" = 'domain=d; empty=; httponly=h; lax=l; strict=s; date=e; quoted="q r"; same=host; utf8=é; same=domain' ] &&
    pass || fail 'header of closed.sqlite: FAILED' "$temp/stdout"

# Of version 140: times in seconds, a cookie without a name, one with an attribute Partitioned that it did not follow, and a log with
# frames from before a checkpoint.
unpacked 140-cookies.sqlite cookies.sqlite
unpacked 140-cookies.sqlite-wal cookies.sqlite-wal
nameless='item 11 is not a cookie'
fails 1 "cookies.sqlite: $nameless; --skip-malformed leaves it out" show --format firefox cookies.sqlite
sed 's/T00:04:57Z/T00:05:55Z/; /^localhost\|^other/s/T00:0.*Z/T00:05:56Z/; s/T00:04:59Z/T00:05:57Z/
    /^other/i localhost / part p 2027-12-01T00:05:56Z secure,samesite=none' rows-153 > rows-140
has_rows cookies.sqlite "cookies: cookies.sqlite: $nameless" rows-140 --skip-malformed

# Rows as a profile may have them: a container's, one without SameSite, and those from before a column was added.
cat > profile.py <<'END'
import sqlite3
connection = sqlite3.connect('closed.sqlite')
connection.execute("UPDATE moz_cookies SET originAttributes = '^userContextId=1' WHERE name = 'other'")
connection.execute("UPDATE moz_cookies SET sameSite = NULL WHERE name = 'lax'")
connection.commit()
connection.execute('ALTER TABLE moz_cookies ADD COLUMN later INTEGER DEFAULT 0')
connection.close()
END
cat > anew.py <<'END'
import sqlite3
connection = sqlite3.connect('closed.sqlite')
connection.execute('UPDATE moz_cookies SET name = name')
connection.commit()
connection.close()
END
python3 profile.py && pass || fail 'closed.sqlite: FAILED'
fails 1 'closed.sqlite: file is not a database that obeys its schema' show --format firefox closed.sqlite
python3 anew.py && pass || fail 'closed.sqlite: FAILED'
sed 's/samesite=lax/-/; /^other/d' rows-153 > rows-profile
has_rows closed.sqlite "cookies: closed.sqlite: ${isolated/1/2}" rows-profile

# Files that are not of Firefox, and names and commands that do not take one.
fails 1 'c.sqlite: not a file of cookies of Firefox' show --format firefox c.sqlite
fails 1 'none.sqlite: No such file or directory (os error 2)' show --format firefox none.sqlite
fails 2 "- cannot be a SQLite file; try 'cookies --help'" show --format firefox -
for words in "convert --to firefox firefox.json unwritten.sqlite" "set --format firefox $page a=1 closed.sqlite" "remove --format firefox closed.sqlite localhost / secure" "purge --format firefox closed.sqlite"; do
    # shellcheck disable=SC2086
    runs $words
    [ "$status" = 2 ] && [ ! -e unwritten.sqlite ] && [ "$(wc -l < "$temp/stderr")" = 1 ] && pass || fail "$words: FAILED with status $status" "$temp/stderr"
done
printf 'none' > none.sqlite
fails 1 'none.sqlite: file is not a database that obeys its schema' show --format firefox none.sqlite
