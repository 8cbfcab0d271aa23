# shellcheck shell=bash
# Tests the packages of bindings/rust. tools/bindings sources it. The one for reqwest needs Debian's crates (package
# librust-reqwest-dev); the other needs cargo alone.
# shellcheck disable=SC2154 # tools/bindings sets temp, lib and valgrind

rust=$temp/rust/bindings/rust
registry=/usr/share/cargo/registry
debian=(--config 'source.crates-io.replace-with="debian"' --config "source.debian.directory=\"$registry\"")
unset COOKIE_STORE_LIB_DIR COOKIE_STORE_STATIC
command -v pkg-config > "$temp/why" || export COOKIE_STORE_LIB_DIR=$lib

# Copies the packages, without what a developer's cargo left there: a Cargo.lock may name versions that are not on this machine.
copy_packages() {
    mkdir -p "$temp/rust"
    tar --exclude=target --exclude=Cargo.lock -cf - bindings/rust bindings/c | tar -C "$temp/rust" -xf -
}

# in_package PACKAGE WORD..: runs a command in that folder, cargo offline and without what takes time and no test needs.
in_package() {
    (cd "$rust/$1" && env CARGO_NET_OFFLINE=true CARGO_TARGET_DIR="$temp/rust/target" CARGO_INCREMENTAL=0 \
        CARGO_PROFILE_DEV_DEBUG=0 RUSTFLAGS='-D warnings' RUSTDOCFLAGS='-D warnings' "${@:2}")
}

# The shell commands that README.md quotes.
# shellcheck disable=SC2016 # the backquotes are those of Markdown
quoted_commands() { awk '/^```/ { quotes = $0 == "```sh"; next } quotes' bindings/rust/README.md; }

# The message of build.rs names both ways to find the library.
names_both_ways() {
    local message nowhere=(COOKIE_STORE_LIB_DIR= PKG_CONFIG_PATH= PKG_CONFIG_LIBDIR="$temp")
    if message=$(in_package . env "${nowhere[@]}" cargo build 2>&1); then return 1; fi
    echo "$message"
    [[ $message = *COOKIE_STORE_LIB_DIR* && $message = *PKG_CONFIG_PATH* ]]
}

# The tests with the static library, without pkg-config and without a folder of shared libraries.
static_tests() {
    local static=(LD_LIBRARY_PATH= PKG_CONFIG_PATH= PKG_CONFIG_LIBDIR="$temp" COOKIE_STORE_STATIC=1 COOKIE_STORE_LIB_DIR="$lib")
    in_package . env "${static[@]}" cargo test --test all
}

# What the threads of Rust's test program leave is possibly lost. The test of memory in RAM is no use there.
under_valgrind() {
    local runner="${valgrind[*]} --errors-for-leak-kinds=definite,indirect --show-leak-kinds=definite,indirect"
    in_package . cargo test --test all --config "target.'cfg(unix)'.runner = '$runner'" -- --skip drop_frees
}

test_rust() {
    if cargo fmt --version > "$temp/why" 2>&1; then
        try 'Rust, format' in_package . cargo fmt --check || true
        try 'Rust, format for reqwest' in_package reqwest cargo fmt --check || true
    else
        skips 'Rust, format' 'there is no cargo fmt'
    fi
    try 'Rust, library not found' names_both_ways || true
    try 'Rust, static' static_tests || true
    try Rust in_package . cargo test || true
    try 'Rust, documentation' in_package . cargo doc --no-deps || true
    if cargo clippy --version > "$temp/why" 2>&1; then
        try 'Rust, clippy' in_package . cargo clippy --all-targets || true
    else
        skips 'Rust, clippy' 'there is no cargo clippy'
    fi
    [ "${#valgrind[@]}" = 0 ] || try 'Rust under valgrind' under_valgrind || true
}

test_rust_reqwest() {
    if ! compgen -G "$registry/reqwest-*" > "$temp/why"; then
        skips 'Rust, reqwest' "there is no $registry/reqwest-*"
    elif try 'Rust, README.md' in_package . bash -ec "$(quoted_commands)"; then
        try 'Rust, reqwest' in_package reqwest cargo test "${debian[@]}" || true
        try 'Rust, fetch' tools/bindings_parts/scenario.py "$temp/rust/target/debug/examples/fetch" || true
    fi
}

if ! command -v cargo > "$temp/why"; then
    skips Rust 'there is no cargo'
elif try 'Rust, copy' copy_packages; then
    test_rust
    test_rust_reqwest
fi
