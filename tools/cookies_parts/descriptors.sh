# shellcheck shell=bash disable=SC2154
# Tests that names of open descriptors are written, also by links and other spellings, and keep what others write there; and that
# no edit replaces one. tools/cookies sources it.
prints '' set "$now" https://a.example/ s=1 plain.json
{ echo first && "$program" convert --to txt plain.json /dev/stdout && echo last; } > "$temp/stdout" || true
[ "$(sed -n '1p;$p' "$temp/stdout")" = $'first\nlast' ] && pass || fail '/dev/stdout: FAILED' "$temp/stdout"
lines first "$first" 'a.example|FALSE|/|FALSE|0|s|1' last > expected.log
ln -s /dev/stdout out.txt
ln -s out.txt twice.txt
ln -s "$(realpath -s --relative-to="$(realpath "$temp")" /proc/self/fd/1)" "$temp/fd"
ln -s ../fd relative.txt
ln -s /dev/stderr error.txt
ln -s /dev devices
for name in /dev/stdout /dev/fd/1 /proc/self/fd/1 /proc/thread-self/fd/1 //dev/stdout /dev/./stdout /dev/../dev/stdout out.txt twice.txt relative.txt \
    devices/stdout ./devices/fd/1; do
    { echo first && "$program" convert --to txt plain.json "$name" && echo last; } > descriptor.log || true
    cmp -s descriptor.log expected.log && pass || fail "$name: FAILED" descriptor.log
done
for name in /dev/stderr /dev/fd/2 /proc/self/fd/2 /proc/thread-self/fd/2 //dev//stderr /dev/../dev/stderr error.txt devices/stderr; do
    { echo first >&2 && "$program" convert --to txt plain.json "$name" && echo last >&2; } 2> descriptor.log || true
    cmp -s descriptor.log expected.log && pass || fail "$name: FAILED" descriptor.log
done
ln -s /dev/fd/7 seven.txt
for name in /dev/fd/7 /proc/self/fd/7 /proc/thread-self/fd/7 //dev/fd/7 seven.txt; do
    echo first > descriptor.log
    { "$program" convert --to txt plain.json "$name" && echo last >&7; } 7>> descriptor.log || true
    cmp -s descriptor.log expected.log && pass || fail "$name: FAILED" descriptor.log
done
fails 1 '/dev/fd/7: No such file or directory (os error 2)' convert --to txt plain.json /dev/fd/7 7>&-
echo first > descriptor.log
"$program" convert --to txt plain.json /dev/stdin < descriptor.log 2> "$temp/stderr" || true
cmp -s descriptor.log <(sed '$d' expected.log) && pass || fail '/dev/stdin: FAILED' descriptor.log "$temp/stderr"
mkfifo pipe.txt
timeout 60 cat pipe.txt > piped.log &
reader=$!
prints '' convert plain.json pipe.txt
wait "$reader" || true
[ "$(wc -l < piped.log)" = 2 ] && [ -p pipe.txt ] && pass || fail 'pipe.txt: FAILED' piped.log
exec 3> >(:)
wait $!
status=0
"$program" show big.txt >&3 2> "$temp/stderr" || status=$?
exec 3>&-
[ "$status" = 1 ] && [ ! -s "$temp/stderr" ] && pass || fail "show to a closed pipe: FAILED with status $status" "$temp/stderr"
runs convert --to txt d.txt /dev/full
[ "$status" = 1 ] && pass || fail 'convert to /dev/full: FAILED' "$temp/stderr"

# An edit replaces its file, so it rejects an open descriptor before it reads or writes; `-` is no file.
lines "$first" 'a.example|FALSE|/|FALSE|1|a|1' 'b.example|FALSE|/|FALSE|0|b|1' > opened.txt
cp opened.txt old.txt
for name in /dev/{stdin,stdout,stderr} /dev/fd/{0,1,2,7} /proc/self/fd/7 /proc/thread-self/fd/7 //dev/stdout /dev/../dev/fd/7 {out,error,seven}.txt; do
    for words in "remove --format txt $name a.example / a" "purge --format txt $name" "set --format txt http://a.example/ c=1 $name"; do
        # shellcheck disable=SC2086
        fails 1 "$name: an open descriptor cannot be replaced" $words < opened.txt 7<> opened.txt
    done
done
for words in 'remove --format txt /dev/fd/7 a.example / a' 'purge --format txt /dev/fd/7' 'set --format txt http://a.example/ c=1 /dev/fd/7'; do
    # shellcheck disable=SC2086
    fails 1 '/dev/fd/7: an open descriptor cannot be replaced' $words 7< opened.txt
    # shellcheck disable=SC2086
    fails 1 '/dev/fd/7: an open descriptor cannot be replaced' $words 7>> opened.txt
done
cmp -s opened.txt old.txt && pass || fail 'opened.txt: FAILED: an edit changed it' opened.txt
prints "$(sed 2d opened.txt)" remove --format txt - a.example / a < opened.txt
prints "$(sed 2d opened.txt)" purge "$now" --format txt - < opened.txt
prints "$(cat opened.txt; lines 'c.example|FALSE|/|FALSE|0|c|1')" set --format txt http://c.example/ c=1 - < opened.txt

# A link whose target is not UTF-8 stays, and what it names.
ln -s $'caf\351.txt' latin.txt
cp opened.txt $'caf\351.txt'
runs set http://a.example/ c=1 latin.txt
[ "$status" = 1 ] && [ -L latin.txt ] && cmp -s $'caf\351.txt' opened.txt && pass || fail "latin.txt: FAILED with status $status" "$temp/stderr"
