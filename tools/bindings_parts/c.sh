# shellcheck shell=bash disable=SC2154
# Tests the C library: the header, the manual page, the programs of bindings/c and of bindings/c/README.md, and the release
# archive. tools/bindings sources it.

# compilers_of LANGUAGE COMPILER..: prints those that have the headers of that language, one a line.
compilers_of() {
    local compiler
    for compiler in "${@:2}"; do
        if "$compiler" -x "$1" -fsyntax-only - <<< '#include <stdio.h>' > "$temp/why" 2>&1; then echo "$compiler"; fi
    done
}

# checks_header COMPILER WORD..: a file that includes the header alone compiles without a warning.
checks_header() {
    printf '%s\n' '#include <cookie_store.h>' 'int main(void) {' 'cookie_store store = COOKIE_STORE_INIT;' \
        'return cookie_store_status_text(COOKIE_STORE_OK) == 0 || store.live; }' > "$temp/header.c"
    "$@" -Wall -Wextra -Werror -pedantic -Wconversion -Wshadow -I "$prefix/include" -fsyntax-only "$temp/header.c"
}

# The version of the header is that of the installation.
has_version() {
    local version
    version=$(awk '/^#define COOKIE_STORE_VERSION_/ { printf "%s%s", sep, $3; sep = "." }' "$prefix/include/cookie_store.h")
    [ "$version" = "$(pkg-config --modversion cookie_store)" ] && [ -f "$lib/libcookie_store.so.$version" ]
}

# links PROGRAM: it asks for the functions in their version.
links() {
    nm -D --with-symbol-versions "$1" | grep cookie_store_ > "$temp/linked" && ! grep -v '@COOKIE_STORE_0$' "$temp/linked"
}

# prints_example COMMAND..: the program of README.md prints what README.md says.
prints_example() { "$@" > "$temp/printed" && quoted text bindings/c/README.md | diff "$temp/printed" -; }

# test_program NAME KIND: compiles a test of bindings/c into $temp/NAME, with the shared or the static library, and runs it.
test_program() {
    local library=$lib/libcookie_store.a
    [ "$2" = static ] || library=-lcookie_store
    if try "$1.c, $2" "$cc" "${flags[@]}" -pthread -o "$temp/$1" "bindings/c/$1.c" -L "$lib" "$library"; then
        try "run of $1.c, $2" timeout 60 "${valgrind[@]}" "$temp/$1" || true
        tail -n 1 "$temp/log"
    fi
}

# test_large.c calls each function that the header declares.
calls_each() {
    local name
    for name in $(declared); do grep -qw "$name" bindings/c/test_large.c || { echo "$name"; return 1; }; done
}

# The header, the manual page and README.md have the sizes of the stack that test_large.c allows.
names_stack() {
    local nested other
    nested=$(sed -nE 's/.*\bNESTED = ([0-9]+) << 10.*/\1/p' bindings/c/test_large.c)
    other=$(sed -nE 's/.*\bSTACK = ([0-9]+) << 10.*/\1/p' bindings/c/test_large.c)
    for file in bindings/c/cookie_store.h docs/cookie_store.3 bindings/c/README.md; do
        tr -s ' *\n' ' ' < "$file" |
            grep -q "at most $nested KB for loading a list in JSON or RON, however deeply nested, and $other KB for other calls" ||
            { echo "$file has other sizes"; return 1; }
    done
}

# A call that uses more of the stack than test_large.c allows is an error.
finds_stack() {
    sed 's/NESTED = [0-9]* <</NESTED = 8 <</' bindings/c/test_large.c > "$temp/shallow.c" &&
        "$cc" "${flags[@]}" -pthread -I bindings/c -o "$temp/shallow" "$temp/shallow.c" "$lib/libcookie_store.a" &&
        ! "$temp/shallow" 2> "$temp/why" && grep '^nested lists: FAILED' "$temp/why"
}

# Each allocation fails in turn. Valgrind has an allocator of its own.
test_allocations() {
    if try test_allocations.c "$cc" "${flags[@]}" -o "$temp/allocations" bindings/c/test_allocations.c "$lib/libcookie_store.a" &&
        try fail_allocation.c compile_fail_allocation "$cc"; then
        try 'run of test_allocations.c' timeout 60 env FAIL_MARK="$temp/mark" LD_PRELOAD="$temp/fail_allocation.so" "$temp/allocations" || true
        tail -n 1 "$temp/log"
    fi
}

# The program of README.md, with each compiler.
test_example() {
    quoted c bindings/c/README.md > "$temp/example.c"
    if try "README.md, $1" "$1" "${flags[@]}" -o "$temp/example" "$temp/example.c" -L "$lib" -lcookie_store; then
        try "run of README.md, $1" prints_example "${valgrind[@]}" "$temp/example" || true
        if has nm; then try 'symbol versions of a program' links "$temp/example" || true; fi
    fi
}

# The program of README.md, linked by the commands that README.md shows for a static library, needs no shared one.
links_statically() {
    grep -A 1 '^lib=\$(pkg-config' bindings/c/README.md > "$temp/static.sh" && (cd "$temp" && bash -e static.sh) &&
        ! ldd "$temp/example" | grep cookie_store && prints_example "$temp/example"
}

# After a URL that fails, fetch.c has replaced the file, which its owner alone can read; a malformed file stays.
replaces_file() {
    local folder=$temp/cookies status
    mkdir "$folder" && for content in '[]' '['; do
        echo "$content" > "$folder/file" && chmod 644 "$folder/file"
        status=0
        "${valgrind[@]}" "$temp/fetch" "$folder/file" http://127.0.0.1:1/ || status=$?
        echo "$content $status $(cat "$folder/file") $(stat -c %a "$folder/file") $(ls "$folder")"
    done > "$temp/printed"
    printf '%s\n' '[] 1 [] 600 file' '[ 1 [ 644 file' | diff "$temp/printed" -
}

# fetch.c makes no request with a Cookie header that has a control character other than HTAB, which a list can have.
refuses_controls() {
    local code escaped file=$temp/controls
    for code in {0..31} 127; do
        printf -v escaped '\\u%04x' "$code"
        echo '[{"raw_cookie":"a=1'"$escaped"'b","path":["/",false],"domain":{"HostOnly":"127.0.0.1"},"expires":"SessionEnd"}]' > "$file"
        "$temp/fetch" "$file" http://127.0.0.1:1/ 2> "$temp/why" || true
        grep -q ': no request: a control character' "$temp/why" || echo "$code"
    done > "$temp/printed"
    echo 9 | diff "$temp/printed" -
}

# Compiles fetch.c by the command that README.md shows.
build_fetch() {
    "$cc" "${flags[@]}" -fsyntax-only bindings/c/fetch.c && cp bindings/c/fetch.c "$temp" &&
        grep '^cc -o fetch ' bindings/c/README.md > "$temp/build.sh" && (cd "$temp" && bash -e build.sh)
}

test_fetch() {
    if try fetch.c build_fetch; then
        try 'run of fetch.c' tools/bindings_parts/scenario.py "${valgrind[@]}" "$temp/fetch" || true
        try 'file of fetch.c' replaces_file || true
        try 'control characters of fetch.c' refuses_controls || true
    fi
}

# Two releases are the same bytes, also with another umask and at another time, which a wheel has in steps of two seconds.
releases() {
    tools/release --unchecked "$temp/first" && sleep 2 && (umask 077 && tools/release --unchecked "$temp/second") &&
        diff -r "$temp/first" "$temp/second" && (cd "$temp/first" && sha256sum -c SHA256SUMS && tar -xzf ./*.tar.gz)
}

# MANIFEST has each file of the release with its sum, and the toolchain that built it.
lists_files() {
    (cd "$temp"/first/*/ && grep -Fx "toolchain $(rt version)" MANIFEST &&
        sed '1,/^$/d' MANIFEST | sha256sum --quiet -c && diff <(sed '1,/^$/d' MANIFEST | sed 's/^[0-9a-f]*  //') \
        <(find . -type f ! -path ./MANIFEST | LC_ALL=C sort))
}

# commits SCRIPT: changes the headings of CHANGELOG.md by a script of sed, and the full check passes of the commit.
commits() {
    sed -i "/^## /$1" CHANGELOG.md && git -c user.name=test -c user.email=test@test commit -q --allow-empty -am headings &&
        full_check "$COOKIE_STORE_ARCHIVE" > out/full_check
}

# Without --unchecked a release needs the full check of the commit and of the archive to have passed, and a version that CHANGELOG.md
# calls released.
needs_check() (
    local not_passed='^release: tools/test has not passed ' release=(tools/release "$temp/third")
    git clone -q . "$temp/clone" && cd "$temp/clone" && mkdir out || exit
    says "$not_passed" "${release[@]}" && commits 's/$/, not yet released/' && says '^release: CHANGELOG.md says' "${release[@]}" &&
        commits 's/, not yet released//g' && echo >> README.md && says "$not_passed" "${release[@]}" && git checkout -q README.md &&
        says "$not_passed" env COOKIE_STORE_ARCHIVE=README.md "${release[@]}" && [ ! -e "$temp/third" ] && "${release[@]}"
)

# A library that does not export what bindings/c/abi.txt lists is not released.
needs_symbols() (
    cd "$temp/clone" && sed -i '/\bcookie_store_count(/d' bindings/c/abi.txt || exit
    ! tools/release --unchecked "$temp/fourth" 2> "$temp/why" && [ ! -e "$temp/fourth" ] &&
        grep -Fx 'release: the library does not export what bindings/c/abi.txt lists' "$temp/why"
)

# npm installs the Node package of the release without a compiler and a network, and it has the library inside.
installs_node_package() (
    mkdir "$temp/released" && quoted js bindings/node/README.md > "$temp/released/first.mjs" && cd "$temp/released" || exit
    unset COOKIE_STORE_ARCHIVE LD_LIBRARY_PATH PKG_CONFIG_PATH
    CC=false npm install --offline --no-audit --no-fund --cache "$temp/released_cache" "$temp"/first/*/node/*.tgz &&
        node first.mjs | diff - <(echo cookie1=value1)
)

# The first commands of the release's INSTALL compile and run the program of README.md, as README.md says, with nothing else
# installed.
uses_release() {
    (cd "$temp"/first/*/ && ls python/cookie_store-*.whl share/man/man3/cookie_store.3 bindings/go/go.mod bindings/rust/Cargo.toml &&
        quoted sh INSTALL > "$temp/install.sh" &&
        env -u PKG_CONFIG_PATH -u LD_LIBRARY_PATH bash -e "$temp/install.sh" > "$temp/printed") &&
        quoted text bindings/c/README.md | diff "$temp/printed" - &&
        quoted sh bindings/c/README.md | diff - <(tail -n 2 "$temp/install.sh")
}

flags=(-std=c11 -Wall -Wextra -Werror -pedantic -I "$prefix/include")
mapfile -t compilers < <(compilers_of c clang gcc)
cc=${compilers[0]:-}
for compiler in "${compilers[@]}"; do
    for standard in c99 c11; do try "header, $compiler, $standard" checks_header "$compiler" -std="$standard" || true; done
done
for compiler in $(compilers_of c++ clang++ g++); do
    try "header, $compiler" checks_header "$compiler" -x c++ -std=c++11 || true
done
if has mandoc; then
    try 'manual pages' mandoc -Tlint -Wwarning docs/cookie_store.3 docs/cookies.1 || true
else
    skips 'manual pages' 'there is no mandoc'
fi
try 'manual page and header' tools/bindings_parts/manual.py || true
try 'ABI and header' tools/bindings_parts/abi.py || true
if [ -z "$cc" ]; then
    skips 'programs of C' 'there is no compiler of C with its headers'
    return
fi
for compiler in "${compilers[@]:1}"; do
    try "tests, $compiler" "$compiler" "${flags[@]}" -fsyntax-only bindings/c/test_*.c || true
done
for kind in shared static; do
    test_program test_cookie_store "$kind"
    test_program test_insert "$kind"
    test_program test_response "$kind"
    test_program test_strict "$kind"
    test_program test_roots "$kind"
    test_program test_lists "$kind"
    test_program test_large "$kind"
done
try 'calls of test_large.c' calls_each || true
try 'sizes of the stack' names_stack || true
try 'a stack that is too small' finds_stack || true
test_program test_threads shared
if has valgrind; then
    try 'helgrind of test_threads.c' timeout 100 valgrind -q --tool=helgrind --error-exitcode=9 "$temp/test_threads" || true
else
    skips 'helgrind of test_threads.c' 'there is no valgrind'
fi
test_allocations
for compiler in "${compilers[@]}"; do test_example "$compiler"; done
if ! has pkg-config; then
    skips 'version, fetch.c and release' 'there is no pkg-config'
    return
fi
try version has_version || true
if has cc; then try 'README.md, static' links_statically || true; fi
if ! pkg-config --exists 'libcurl >= 7.88'; then
    skips fetch.c 'there is no header of libcurl 7.88 or later'
elif ! has openssl || ! has cc; then
    skips fetch.c 'there is no openssl or no cc'
else
    test_fetch
fi
if ! git rev-parse HEAD > "$temp/why" 2>&1; then
    skips release 'this is no git repository'
elif try release releases; then
    try MANIFEST lists_files || true
    if try 'release without the full check' needs_check; then try 'release of other symbols' needs_symbols || true; fi
    if ! has npm; then
        skips 'Node package of the release' 'there is no npm'
    elif ! compgen -G "$temp/first/*/node/*.tgz" > "$temp/why"; then
        skips 'Node package of the release' 'there are no headers of Node'
    else
        try 'Node package of the release' installs_node_package || true
    fi
    if has cc; then try INSTALL uses_release || true; else skips INSTALL 'there is no cc'; fi
fi
