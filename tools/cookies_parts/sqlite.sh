# shellcheck shell=bash disable=SC2154
# Tests SQLite files, also as Python's sqlite3 reads and writes them. tools/cookies sources it.

# Of a copy of a file without its log, prints whether SQLite finds it sound, and the rows of these columns.
cat > rows.py <<'END'
import shutil, sqlite3, sys
shutil.copyfile(sys.argv[1], 'alone.sqlite')
connection = sqlite3.connect('alone.sqlite')
print(*connection.execute('PRAGMA integrity_check').fetchone())
for row in connection.execute(f'SELECT {sys.argv[2]} FROM cookies ORDER BY id'):
    print(*('NULL' if value is None else repr(value) for value in row))
connection.close()
END

# rows FILE COLUMNS ROW..: a file must have these rows of a table, as Python's sqlite3 reads them.
rows() {
    python3 rows.py "$1" "$2" > "$temp/rows" 2>&1 || true
    if printf '%s\n' ok "${@:3}" | diff - "$temp/rows" > "$temp/diff" 2>&1; then
        pass
    else
        fail "$1: FAILED: its rows" "$temp/diff"
    fi
}

# The table as docs and crates/cookie_table/src/writing.rt have it, with other rows than the program's, in a file with no log.
cat > create.py <<'END'
import sqlite3, sys
connection = sqlite3.connect(sys.argv[1])
connection.execute('CREATE TABLE cookies (id INTEGER PRIMARY KEY, host TEXT NOT NULL, kind INTEGER NOT NULL, path TEXT NOT NULL, '
                   'pathFromAttribute INTEGER NOT NULL, name TEXT NOT NULL, value TEXT NOT NULL, expiry TEXT, isSecure INTEGER, '
                   'isHttpOnly INTEGER, sameSite INTEGER, domainAttribute TEXT, pathAttribute TEXT, maxAge INTEGER, '
                   'expiresAttribute TEXT)')
row = 'INSERT INTO cookies VALUES (?, ?, ?, ?, ?, ?, ?, ?, ?, ?, ?, ?, ?, ?, ?)'
connection.execute(row, (7, 'a.example', 1, '/', 1, 'b', '2', '2026-01-01T00:01:00Z', 1, 1, 0, 'a.example', '/', None, '2026-01-01T00:01:00Z'))
connection.execute(row, (9, 'a.example', 0, '/d', 0, 'a', '1', None, None, None, None, None, None, None, None))
connection.commit()
END

# A file that is created, and the commands on it.
prints '' set "$now" "$page" 'a=1; Max-Age=60' c.sqlite
prints '' set "$now" "$page" 'b="2"; Domain=a.example; Path=/; HttpOnly' c.sqlite
prints '' set "$now" https://shop.a.example/ 'c=3; Secure; SameSite=Lax; Expires=Thu, 01 Jan 2026 00:02:00 GMT' c.sqlite
[ "$(stat -c %a c.sqlite)" = 600 ] && pass || fail 'c.sqlite: FAILED: others can read it'
all='id, host, kind, path, pathFromAttribute, name, value, expiry, isSecure, isHttpOnly, sameSite, domainAttribute, pathAttribute, maxAge, expiresAttribute'
row_a="1 'shop.a.example' 0 '/d' 0 'a' '1' '2026-01-01T00:01:00Z' NULL NULL NULL NULL NULL 60 NULL"
row_b="2 'a.example' 1 '/' 1 'b' '\"2\"' NULL NULL 1 NULL 'a.example' '/' NULL NULL"
row_c="3 'shop.a.example' 0 '/' 0 'c' '3' '2026-01-01T00:02:00Z' 1 NULL 1 NULL NULL NULL '2026-01-01T00:02:00Z'"
rows c.sqlite "$all" "$row_a" "$row_b" "$row_c"
prints 'DOMAIN          PATH  NAME  VALUE  EXPIRES               FLAGS
shop.a.example  /d    a     1      2026-01-01T00:01:00Z  -
shop.a.example  /     c     3      2026-01-01T00:02:00Z  secure,samesite=lax
.a.example      /     b     "2"    session               httponly' show "$now" c.sqlite
prints 'a=1; b="2"' header "$now" "$page" c.sqlite
prints 'b="2"; c=3' header "--now=2026-01-01T00:01:00Z" https://shop.a.example/ c.sqlite
prints '' header "$now" http://b.example/ c.sqlite
prints 'DOMAIN          PATH  NAME  EXPIRES               FLAGS                SENT
shop.a.example  /d    a     2026-01-01T00:01:00Z  -                    yes
shop.a.example  /     c     2026-01-01T00:02:00Z  secure,samesite=lax  no: Secure cookie, but the URL is not secure
.a.example      /     b     session               httponly             yes' explain "$now" "$page" c.sqlite
rows c.sqlite "$all" "$row_a" "$row_b" "$row_c"

# A cookie keeps its row, and a value of another is rejected or stored by the same rules.
prints '' set "$now" "$page" 'a=4; Max-Age=60' c.sqlite
rows c.sqlite 'id, name, value' "1 'a' '4'" "2 'b' '\"2\"'" "3 'c' '3'"
fails 1 'cookie rejected: domain-attribute value is a public suffix' set "$now" --suffixes list.dat "$page" 'd=4; Domain=a.example' c.sqlite
fails 1 'cookie rejected: cookie lacks what the prefix of its name demands' set "$now" --strict https://a.example/ '__Host-d=4' c.sqlite
prints '' set "$now" --strict https://a.example/ '__Host-d=4; Secure; Path=/' c.sqlite
prints 'b="2"; __Host-d=4' header "$now" --strict https://a.example/ c.sqlite
rows c.sqlite 'id, name' "1 'a'" "2 'b'" "3 'c'" "4 '__Host-d'"

# Removals.
prints '' remove c.sqlite .a.example / b
cp c.sqlite old.sqlite || true
fails 1 'c.sqlite: no such cookie' remove c.sqlite .a.example / b
prints '' purge "$now" c.sqlite
cmp -s c.sqlite old.sqlite && pass || fail 'c.sqlite: FAILED: it was changed where nothing was removed'
rows c.sqlite 'id, name' "1 'a'" "3 'c'" "4 '__Host-d'"
prints '' purge --now=2026-01-01T00:01:00Z c.sqlite
rows c.sqlite 'id, name' "3 'c'" "4 '__Host-d'"
prints '' purge --session c.sqlite
rows c.sqlite 'id, name' "3 'c'"
prints '' set "$now" http://a.example/ 'e=5' c.sqlite
prints '' purge --domain A.example c.sqlite
rows c.sqlite 'id, name' "3 'c'"

# A file that Python writes, which is replaced by no command but has other rows.
python3 create.py python.sqlite && pass || fail 'python.sqlite: FAILED'
prints 'DOMAIN      PATH  NAME  VALUE  EXPIRES               FLAGS
.a.example  /     b     2      2026-01-01T00:01:00Z  secure,httponly,samesite=none
a.example   /d    a     1      session               -' show "$now" python.sqlite
inode=$(stat -c %i python.sqlite)
chmod 640 python.sqlite
prints '' set "$now" http://b.example/ 'c=3' python.sqlite
rows python.sqlite 'id, host, name' "7 'a.example' 'b'" "9 'a.example' 'a'" "10 'b.example' 'c'"
python3 -c "
import sqlite3
connection = sqlite3.connect('python.sqlite')
connection.execute('DELETE FROM cookies WHERE id = 9')
connection.commit()
connection.close()" && pass || fail 'python.sqlite: FAILED: Python cannot write it'
prints 'DOMAIN      PATH  NAME  VALUE  EXPIRES               FLAGS
.a.example  /     b     2      2026-01-01T00:01:00Z  secure,httponly,samesite=none
b.example   /     c     3      session               -' show "$now" python.sqlite
[ "$(stat -c '%i %a' python.sqlite)" = "$inode 640" ] && pass || fail 'python.sqlite: FAILED: it was replaced'
ln -s python.sqlite link.sqlite
prints '' remove link.sqlite b.example / c
[ -L link.sqlite ] && rows python.sqlite 'id, name' "7 'b'" || fail 'link.sqlite: FAILED: it was replaced'

# Each format to each, and back; a file that exists is replaced, expired cookies and session cookies are kept.
lines "$first" 'a.example|FALSE|/d|FALSE|1767225660|a|1' '#HttpOnly_.b.example|TRUE|/|TRUE|0|b|2' > pair.txt
for from in json jsonl ron sqlite txt; do
    prints '' convert pair.txt "from.$from"
    for to in json jsonl ron sqlite txt; do
        prints '' set "$now" http://c.example/ 'c=3' "to.$to"
        prints '' convert "from.$from" "to.$to"
        prints 'DOMAIN      PATH  NAME  VALUE  EXPIRES                         FLAGS
a.example   /d    a     1      2026-01-01T00:01:00Z (expired)  -
.b.example  /     b     2      session                         secure,httponly' show --now=2026-01-01T00:01:00Z "to.$to"
    done
    rows to.sqlite 'id, host, kind, path, name, value, expiry' "1 'a.example' 0 '/d' 'a' '1' '2026-01-01T00:01:00Z'" \
        "2 'b.example' 1 '/' 'b' '2' NULL"
done
[ "$(stat -c %a from.sqlite)" = 600 ] && pass || fail 'from.sqlite: FAILED: others can read it'
prints '' convert --from sqlite --to json from.sqlite again.cookies
prints "$("$program" show --json from.json)" show --json --format json again.cookies
cp pair.txt same.sqlite
prints '' convert --from txt --to jsonl same.sqlite same.jsonl
prints '' convert from.sqlite from.sqlite
rows from.sqlite 'id, name' "1 'a'" "2 'b'"

# A file that does not exist is created by `set` and `convert` alone, and not for a value that is rejected.
for words in 'show new.sqlite' "header $page new.sqlite" "explain $page new.sqlite" 'remove new.sqlite a.example / a' 'purge new.sqlite' \
    'convert new.sqlite new.json'; do
    # shellcheck disable=SC2086
    fails 1 'new.sqlite: No such file or directory (os error 2)' $words
done
fails 1 'cookie rejected: domain-attribute value is a public suffix' set "$now" --suffixes list.dat "$page" 'c=3; Domain=a.example' new.sqlite
fails 1 'cookie rejected: cookie lacks what the prefix of its name demands' set "$now" --strict https://a.example/ '__Host-a=1' new.sqlite
[ ! -e new.sqlite ] && [ ! -e new.sqlite-wal ] && [ ! -e new.json ] && pass || fail 'new.sqlite: FAILED: it was created'
stream='- cannot be a SQLite file'
for words in 'show --format sqlite -' "header --format sqlite $page -" "explain --format sqlite $page -" "set --format sqlite $page a=1 -" \
    'remove --format sqlite - a.example / a' 'purge --format sqlite -' 'convert --from sqlite - new.json' 'convert --to sqlite pair.txt -'; do
    # shellcheck disable=SC2086
    fails 2 "$stream; try 'cookies --help'" $words
done
: > descriptor.txt
for words in "set --format sqlite $page a=1 /dev/fd/3" 'purge --format sqlite /dev/fd/3' 'convert --to sqlite pair.txt /dev/fd/3'; do
    # shellcheck disable=SC2086
    fails 1 '/dev/fd/3: an open descriptor cannot be replaced' $words 3>> descriptor.txt
done

# on_each FILE MESSAGE: every command fails on the file, and leaves it as it was.
on_each() {
    local words
    cp "$1" old.sqlite || true
    for words in "show $1" "show --skip-malformed $1" "header $page $1" "explain $page $1" "set $now $page a=1 $1" "remove $1 a.example / a" \
        "purge $1" "purge --session $1" "convert $1 new.json" "convert pair.txt $1"; do
        # shellcheck disable=SC2086
        fails 1 "$1: $2" $words
        cmp -s "$1" old.sqlite && [ ! -e new.json ] && pass || fail "$words: FAILED: it changed a file"
    done
}

# Files of other programs.
python3 - <<'END' && pass || fail 'FAILED: Python writes no files'
import shutil, sqlite3
columns = 'CREATE TABLE moz_cookies (id INTEGER PRIMARY KEY, name TEXT, value TEXT, host TEXT)'
for name, statements in {
    'table': [columns, "INSERT INTO moz_cookies VALUES (1, 'a', '1', 'a.example')"],
    'columns': ['CREATE TABLE cookies (id INTEGER PRIMARY KEY, host TEXT)', "INSERT INTO cookies VALUES (1, 'a.example')"],
    'empty': [columns, 'DROP TABLE moz_cookies'],
}.items():
    connection = sqlite3.connect(f'{name}.sqlite')
    for statement in statements:
        connection.execute(statement)
    connection.commit()
for name, statement in {
    'index': 'CREATE INDEX names ON cookies (name)',
    'more': columns,
    'kind': 'UPDATE cookies SET kind = 7 WHERE name = "a"',
    'twice': 'UPDATE cookies SET host = "b.example", kind = 1, path = "/", name = "b"',
}.items():
    shutil.copyfile('from.sqlite', f'{name}.sqlite')
    connection = sqlite3.connect(f'{name}.sqlite')
    connection.execute(statement)
    connection.commit()
    connection.close()
END
foreign='not a SQLite file of cookies' damaged='damaged, or a row is not a cookie'
cp pair.txt text.sqlite
for name in table columns index more text; do on_each "$name.sqlite" "$foreign"; done
for name in kind twice; do on_each "$name.sqlite" "$damaged"; done
prints '' set "$now" "$page" 'a=1' empty.sqlite
rows empty.sqlite 'id, name' "1 'a'"

# An empty file gets the table, also when it is read, and its log can be read by its owner alone.
: > zero.sqlite
chmod 600 zero.sqlite
prints 'DOMAIN  PATH  NAME  VALUE  EXPIRES  FLAGS' show "$now" zero.sqlite
prints '' purge --session zero.sqlite
rows zero.sqlite 'id, name'
[ "$(stat -c %a zero.sqlite zero.sqlite-wal)" = $'600\n600' ] && pass || fail 'zero.sqlite: FAILED: others can read it'

# A value that has expired keeps its row until `purge`, and cookies with one domain, path and name are one row.
prints '' set "$now" "$page" 'x=1' zero.sqlite
prints '' set "$now" "$page" 'x=2; Max-Age=0' zero.sqlite
rows zero.sqlite 'id, name, value' "1 'x' '1'"
prints '' purge "$now" zero.sqlite
rows zero.sqlite 'id, name'
lines "$first" 'a.example|FALSE|/|FALSE|0|a|1' 'a.example|FALSE|/|FALSE|0|b|2' 'a.example|FALSE|/|FALSE|0|a|3' > again.txt
prints '' convert again.txt zero.sqlite
rows zero.sqlite 'id, name, value' "1 'a' '3'" "2 'b' '2'"

# No row can follow one with the greatest rowid, and a malformed line creates no file.
python3 create.py last.sqlite && python3 -c "
import sqlite3
connection = sqlite3.connect('last.sqlite')
connection.execute('UPDATE cookies SET id = 9223372036854775807 WHERE id = 9')
connection.commit()
connection.close()" && pass || fail 'last.sqlite: FAILED'
on_each last.sqlite 'the table has no rowid left'
lines "$first" 'a.example|FALSE|/' > few.txt
fails 1 'few.txt: line 2 is not a cookie; --skip-malformed leaves it out' convert few.txt none.sqlite
[ ! -e none.sqlite ] && pass || fail 'none.sqlite: FAILED: it was created'

# Damaged files, and files that cannot be opened.
head -c 5000 from.sqlite > cut.sqlite || true
on_each cut.sqlite "$damaged"
python3 -c "
data = bytearray(open('from.sqlite', 'rb').read())
data[4096:4104] = bytes(8)
open('zeros.sqlite', 'wb').write(data)" && pass || fail 'zeros.sqlite: FAILED'
on_each zeros.sqlite "$damaged"
cp from.sqlite hot.sqlite || true
echo journal > hot.sqlite-journal
on_each hot.sqlite 'SQLite left a rollback journal beside it, open it with sqlite3 first'
{ cp from.sqlite first.sqlite && ln first.sqlite second.sqlite; } || true
on_each second.sqlite 'it or its log is not a regular file with one name'
fails 1 'folder: it or its log is not a regular file with one name' show --format sqlite folder
ln -s nothing.sqlite dangling.sqlite
fails 1 'dangling.sqlite: it or its log is not a regular file with one name' set "$now" "$page" 'a=1' dangling.sqlite
[ -L dangling.sqlite ] && [ ! -e nothing.sqlite ] && pass || fail 'dangling.sqlite: FAILED: it was written'

# A file that another program has open is left to it.
cat > lock.py <<'END'
import sqlite3, sys, time
connection = sqlite3.connect(sys.argv[1], isolation_level=None)
connection.execute('BEGIN EXCLUSIVE')
print('locked', flush=True)
time.sleep(600)
END
python3 create.py plain.sqlite && pass || fail 'plain.sqlite: FAILED'
for name in from plain; do
    rm -f locked.txt
    python3 lock.py "$name.sqlite" > locked.txt &
    holder=$!
    for _ in {1..100}; do [ -s locked.txt ] && break || sleep 0.1; done
    on_each "$name.sqlite" 'another program has it locked'
    kill "$holder" || true
    wait "$holder" 2> "$temp/why" || true
    runs show "$now" "$name.sqlite"
    [ "$status" = 0 ] && pass || fail "$name.sqlite: FAILED: it stays locked" "$temp/stderr"
done

# Of programs that change a file at the same time each succeeds, or finds it locked and changes nothing.
for number in {1..20}; do
    {
        if "$program" set "$now" "$page" "n$number=1" many.sqlite 2> "why$number.txt"; then
            echo "n$number"
        elif ! grep -qx 'cookies: many.sqlite: another program has it locked' "why$number.txt"; then
            echo "n$number" > broken.txt
        fi
    } > "done$number.txt" &
done
wait
"$program" show "$now" many.sqlite | sed 1d | awk '{ print $3 }' | sort > names.txt || true
[ ! -e broken.txt ] && [ -s names.txt ] && sort done*.txt | cmp -s - names.txt && pass || fail 'many.sqlite: FAILED: it lost a cookie' why*.txt

# Many rows at once.
python3 - <<'END'
with open('large.txt', 'w') as file:
    file.write('# Netscape HTTP Cookie File\n')
    for number in range(5000):
        file.write(f'h{number}.example\tFALSE\t/\tFALSE\t{number % 2 * 1767225660}\tname{number}\t{number}\n')
END
prints '' convert large.txt large.sqlite
python3 rows.py large.sqlite 'count(*)' > "$temp/rows" || true
[ "$(tail -n 1 "$temp/rows")" = 5000 ] && pass || fail 'large.sqlite: FAILED' "$temp/rows"
prints '' purge --session large.sqlite
prints '' convert large.sqlite large-again.txt
{ head -n 1 large.txt && grep $'\t1767225660\t' large.txt; } | cmp -s - large-again.txt && pass || fail 'large.sqlite: FAILED: its cookies'
