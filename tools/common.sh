# shellcheck shell=bash
# What the shell tools share. Each sources it before anything else: with --help the tool then prints its first comment and
# exits with status 0. It sets `tool`, the tool's name, and `root`, the repository's folder.

tool=$(basename "$0") root=$(realpath -- "$(dirname "$0")/..")
passed=0 failed=0
if [ "${1:-}" = --help ] || [ "${1:-}" = -h ]; then
    sed -n '2,/^[^#]/s/^# \{0,1\}//p' "$0"
    exit 0
fi

# wrong_usage MESSAGE: exits with status 2.
wrong_usage() {
    echo "$tool: $1 (see tools/$tool --help)" >&2
    exit 2
}

# no_arguments ARGUMENT..: exits with status 2 if there is one.
no_arguments() { [ $# = 0 ] || wrong_usage "unknown argument: $1"; }

# stop MESSAGE [LOG]: exits with status 1.
stop() {
    [ $# = 1 ] || cat "$2" >&2
    echo "$tool: $1" >&2
    exit 1
}

# Sets `temp`, a folder that is removed at exit.
make_temp() {
    temp=$(mktemp -d)
    trap 'rm -rf "$temp"' EXIT
}

# pass [MESSAGE]: counts a test that passed.
pass() {
    passed=$((passed + 1))
    [ $# = 0 ] || echo "$1"
}

# fail MESSAGE [LOG..]: counts a test that failed, and prints the last lines of the logs.
fail() {
    failed=$((failed + 1))
    echo "$1"
    [ $# = 1 ] || tail -n 40 "${@:2}"
}

# try NAME WORD..: runs a command, counts and prints whether it succeeded, and returns its status. $temp/log has what it printed.
try() {
    local status=0
    "${@:2}" > "$temp/log" 2>&1 || status=$?
    if [ "$status" = 0 ]; then pass "$1: passed"; else fail "$1: FAILED with status $status" "$temp/log"; fi
    return "$status"
}

# report NAME: prints the counts. Returns 1 if a test failed.
report() {
    echo "$1: $passed passed, $failed failed"
    [ "$failed" = 0 ]
}

# Prints the commit's tree and the toolchain. Fails if a file is not as in the commit.
identity() {
    local tree
    tree=$(git rev-parse 'HEAD^{tree}') && [ -z "$(git status --porcelain)" ] && echo "$tree $(rt version)"
}

# full_check ARCHIVE: prints what out/full_check has once tools/test passed of the commit: its tree, the toolchain, and the sum of
# the archive that was tested. Fails if a file is not as in the commit.
full_check() { identity && sha256sum < "$1"; }

# exported LIBRARY: prints the symbols that a shared library exports, with their version, one a line.
exported() { nm -D --defined-only --with-symbol-versions "$1" | awk '$2 != "A" { print $3 }' | LC_ALL=C sort; }

# Prints the names in crates.txt, lowest first.
crates() { sed 's/#.*//; s/[ :].*//; /^$/d' crates.txt; }

# Prints those that have tests.
tested_crates() {
    local crate
    for crate in $(crates); do
        if grep -rqs '#\[test\]' "crates/$crate/src"; then echo "$crate"; fi
    done
}

# copy_sources FOLDER PATH..: copies paths of the repository, without what was built.
copy_sources() {
    mkdir -p "$1"
    tar -C "$root" --exclude=out --exclude=.git --exclude=__pycache__ -cf - "${@:2}" | tar -C "$1" -xf -
}

# with_compiler FUNCTION: calls FUNCTION COMPILER.. with a C compiler of the machine, and if that fails with the toolchain's,
# which has no C library.
with_compiler() {
    { "$1" clang || "$1" cc || "$1" "$(dirname "$(rt doc)")/toolchain/bin/clang" -fuse-ld=lld -nostdlib; } > "$temp/log" 2>&1 ||
        stop 'no C compiler succeeds' "$temp/log"
}

# compile_fail_allocation COMPILER..: compiles tools/fail_allocation.c into $temp/fail_allocation.so.
compile_fail_allocation() { "$@" -O2 -shared -fPIC -nostdlib -o "$temp/fail_allocation.so" tools/fail_allocation.c; }

# quoted LANGUAGE FILE: the first program of that language that a Markdown file quotes.
quoted() { awk -v begin="\`\`\`$1" '$0 == "```" { if (quotes) exit } quotes; $0 == begin { quotes = 1 }' "$2"; }
