# shellcheck shell=bash disable=SC2154
# Tests the Go package, and the code and the commands that bindings/go/README.md quotes. tools/bindings sources it.

# Tests a copy: Go's cache goes by the folder of a package, and does not notice that the library is in another one than before.
in_go() { (cd "$temp/go" && "$@"); }

# Go has a C compiler with its headers, and pkg-config.
go_compiles_c() {
    printf '%s\n' 'package main' '// #include <stdio.h>' 'import "C"' 'func main() {}' > "$temp/main.go" &&
        go build -o "$temp/go_main" "$temp/main.go" && command -v pkg-config
}

# A cache in the home makes all but the first run fast.
go_cache() {
    local cache
    cache=$(go env GOCACHE)
    [[ $cache = /* ]] && mkdir -p "$cache" 2> "$temp/why" && [ -w "$cache" ] || cache=$temp/go_cache
    echo "$cache"
}

go_is_formatted() { in_go gofmt -d . > "$temp/formatted" && diff /dev/null "$temp/formatted"; }

# Without cgo the build fails, and the only error says why.
go_needs_cgo() {
    ! in_go env CGO_ENABLED=0 go build . > "$temp/no_cgo" 2>&1 &&
        grep -v '^#' "$temp/no_cgo" | sed 's/.*: //' | diff - <(echo cookiestore_needs_cgo_and_a_C_compiler)
}

# go_block LANGUAGE N: the README's block N of that language.
go_block() {
    awk -v begin="\`\`\`$1" -v wanted="$2" '$0 == "```" { inside = 0 } inside && n == wanted; $0 == begin { inside = 1; n++ }' \
        bindings/go/README.md
}

# The README's programs are parts of examples, but for the second, which is fetch.
go_quotes_are_tested() {
    local part example n
    example=$(cat bindings/go/example_test.go bindings/go/sites/example_test.go)
    for n in 1 3 4 5; do
        part=$(go_block go "$n" | sed 's/^./\t&/')
        [ -n "$part" ] && [[ $example = *"$part"* ]] || return 1
    done
    go_block go 2 | diff bindings/go/fetch/main.go -
}

# Runs the README's commands in a new home. They build $temp/home/fetch/fetch, which finds the library by itself.
go_readme() {
    local archive
    mkdir "$temp/home" && ln -s "$root" "$temp/home/pulleymaroon" &&
        archive=$(realpath -e -- "${COOKIE_STORE_ARCHIVE:-crates/cookie_store_c/out/libcookie_store_c.a}") &&
        { go_block sh 1 && go_block sh 2; } > "$temp/readme.sh" &&
        (cd "$temp/home" && env -u PKG_CONFIG_PATH HOME="$temp/home" COOKIE_STORE_ARCHIVE="$archive" bash -e "$temp/readme.sh")
}

go_scenario() { env -u LD_LIBRARY_PATH tools/bindings_parts/scenario.py "$temp/home/fetch/fetch"; }

# go_test WORD..: tests packages. Those of sites share cookies with the installed package of Python.
go_test() { in_go env PYTHONPATH="$lib/python3/dist-packages" go test -count=1 "$@"; }

python_has_redis() {
    local python
    for python in python3 /usr/bin/python3; do
        if "$python" -c 'import redis' 2> "$temp/why"; then return; fi
    done
    return 1
}

go_tests() {
    cp -R bindings/go "$temp/go"
    try 'Go format' go_is_formatted || true
    try 'go vet' in_go go vet ./... || true
    try 'go build without cgo' go_needs_cgo || true
    try 'go test' go_test ./... || true
    try 'go test -race' go_test -race -vet=off . ./sites || true
    if ! has redis-server; then
        skips 'Go, sites in Redis' 'there is no redis-server'
    elif ! python_has_redis; then
        skips 'Go and Python, sites in Redis' 'no Python has the package redis'
    fi
    try 'README.md of Go, code' go_quotes_are_tested || true
    if try 'README.md of Go, commands' go_readme; then try 'fetch of Go' go_scenario || true; fi
}

if ! command -v go > "$temp/why"; then
    skips 'Go package' 'there is no go'
else
    GOCACHE=$(go_cache)
    export GOCACHE GOFLAGS='' GOPROXY=off GOTOOLCHAIN=local GOWORK=off
    if go_compiles_c > "$temp/why" 2>&1; then go_tests; else skips 'Go package' 'there is no pkg-config or C compiler'; fi
fi
