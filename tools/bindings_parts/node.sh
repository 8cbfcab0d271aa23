# shellcheck shell=bash disable=SC2154
# Tests the Node package: its build, its tests, its types, an installation by npm, and the program examples/fetch.mjs. Sourced by
# tools/bindings, after the installation.

node_copy=$temp/node package=$temp/node/bindings/node

# Builds in a copy, in which tools/install finds its files too.
copy_node() { copy_sources "$node_copy" bindings/node bindings/c bindings/python tools docs/cookie_store.3 VERSION; }

# build_node VARIABLE=VALUE..: builds the addon, by pkg-config unless a variable says otherwise.
build_node() { (cd "$package" && rm -f cookie_store.node && env -u COOKIE_STORE_ARCHIVE "$@" node build.js); }

# node_tests FILE..: runs tests. Debian's modules, such as tough-cookie, are where its own Node finds them.
node_tests() { (cd "$package" && NODE_PATH=/usr/share/nodejs node --test "$@"); }

# The addon is built with a library inside, which the tests then use.
node_static() { build_node "$@" && (unset LD_LIBRARY_PATH && node_tests tests/store.test.js tests/files.test.js); }

# Without the library the build prints a line that says what to do.
node_names_variable() {
    build_node PKG_CONFIG_PATH= PKG_CONFIG_LIBDIR="$temp" 2> "$temp/why" && return 1
    [ "$(wc -l < "$temp/why")" = 1 ] && grep -F PKG_CONFIG_PATH "$temp/why"
}

# npm installs the package without a network. The page's first program then finds it, and it finds the library by itself.
npm_installs() {
    mkdir "$temp/npm" && quoted js bindings/node/README.md > "$temp/npm/first.mjs" && rm "$package/cookie_store.node" &&
        (cd "$temp/npm" && unset COOKIE_STORE_ARCHIVE LD_LIBRARY_PATH &&
            npm install --offline --no-audit --no-fund --cache "$temp/npm_cache" "$package" &&
            node first.mjs | diff - <(echo cookie1=value1))
}

node_types() {
    (cd "$package" && tsc --noEmit --strict --target es2020 --lib es2020 --module node16 --moduleResolution node16 tests/types.ts)
}

# As curl does by itself, Node reads SSL_CERT_FILE and proxies here, and finds 127.0.0.1 for localhost.
node_scenario() {
    tools/bindings_parts/scenario.py node --use-openssl-ca --dns-result-order=ipv4first --require "$package/tests/proxies.js" \
        "$package/examples/fetch.mjs"
}

# Node's own leaks do not count: only a report that names the library or the addon.
node_tests_lose_nothing() {
    (cd "$package" && valgrind --leak-check=full --log-file="$temp/valgrind" node tests/store.test.js) &&
        grep -q 'HEAP SUMMARY' "$temp/valgrind" && ! grep -B 20 -A 20 -E 'cookie_store' "$temp/valgrind"
}

# What the build needs and this machine lacks, or nothing.
node_lacks() {
    local program
    for program in node cc pkg-config; do has "$program" || { echo "there is no $program"; return; }; done
    [ -f "$(dirname "$(node -p process.execPath)")/../include/node/node_api.h" ] || [ -f /usr/include/node/node_api.h ] ||
        echo 'there are no headers of Node'
}

test_node() {
    try 'Node, library not found' node_names_variable || true
    try 'Node, static' node_static COOKIE_STORE_STATIC=1 || true
    try 'Node, archive' node_static COOKIE_STORE_ARCHIVE="$COOKIE_STORE_ARCHIVE" || true
    try 'Node, build' build_node || return 0
    try "Node $(node --version)" node_tests "$package"/tests/*.test.js || true
    grep -E '# (SKIP|there is no|skipped: )' "$temp/log" || true
    if has tsc; then try 'Node, types' node_types || true; else skips 'Node, types' 'there is no tsc'; fi
    if has openssl; then try 'Node, fetch.mjs' node_scenario || true; else skips 'Node, fetch.mjs' 'there is no openssl'; fi
    [ -z "${valgrind[*]:-}" ] || try 'Node under valgrind' node_tests_lose_nothing || true
    if has npm; then try 'Node, npm install' npm_installs || true; else skips 'Node, npm install' 'there is no npm'; fi
}

lack=$(node_lacks)
if [ -n "$lack" ]; then skips Node "$lack"; elif try 'Node, copy' copy_node; then test_node; fi
