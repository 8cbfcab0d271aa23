# shellcheck shell=bash disable=SC2154
# Tests the Python package: its unit tests, with each Python of this machine that has clients, its types, its wheel, which pip
# installs without a network, and the program examples/fetch.py. Sourced by tools/bindings, after the installation.

# with_package WORD..: runs a command in the folder of the tests, with the installed package.
with_package() { (cd bindings/python/tests && PYTHONPATH=$lib/python3/dist-packages "$@"); }

# alone PYTHON WORD..: runs Python without what tells it where the package and the library are.
alone() { (cd "$temp" && env -u COOKIE_STORE_LIBRARY -u LD_LIBRARY_PATH -u PYTHONPATH "$@"); }

# can_import PYTHON MODULE..: whether that Python has all these modules.
can_import() {
    command -v "$1" > /dev/null &&
        "$1" -c 'import importlib, sys; [importlib.import_module(name) for name in sys.argv[1:]]' "${@:2}" 2> /dev/null
}

# one_can_import MODULE..: whether one of the Pythons has all these modules.
one_can_import() { can_import python3 "$@" || can_import /usr/bin/python3 "$@"; }

# The installed package finds the library beside it.
finds_library() {
    alone env PYTHONPATH="$lib/python3/dist-packages" python3 -c 'import cookie_store; cookie_store.CookieStore()'
}

# unit_tests PYTHON: prints what was skipped, and how many ran.
unit_tests() {
    local status=0
    try "unit tests, $("$1" --version)" with_package timeout 600 "$1" -m unittest -v || status=$?
    grep -E ' \.\.\. skipped |^Ran ' "$temp/log" || true
    return "$status"
}

# Plain pip, without a network, a cache or an index.
plain_pip() { PIP_NO_INDEX=1 PIP_NO_CACHE_DIR=1 PIP_DISABLE_PIP_VERSION_CHECK=1 python3 -m pip "$@"; }

# installs_into FOLDER SOURCE: installs into a new folder, from which a call of the package then succeeds.
installs_into() {
    plain_pip install --no-deps --target "$1" "$2" && [ -f "$1/cookie_store/py.typed" ] &&
        alone env PYTHONPATH="$1" python3 -c "
from cookie_store import CookieStore
store = CookieStore()
store.parse('http://example.com/', 'a=1')
print(store.header('http://example.com/'))" | grep -Fx 'a=1'
}

# pip builds the same wheel again, also from a library that is built already, and writes nothing into the source folder.
pip_builds() {
    local before
    before=$(find bindings/python | sort)
    (unset COOKIE_STORE_LIBRARY && plain_pip wheel --no-deps -w "$temp/wheel" ./bindings/python) &&
        plain_pip wheel --no-deps -w "$temp/again" ./bindings/python &&
        cmp "$temp/wheel/"*.whl "$temp/again/"*.whl && [ "$before" = "$(find bindings/python | sort)" ]
}

pip_installs() { (unset COOKIE_STORE_LIBRARY && installs_into "$temp/pip" ./bindings/python); }

# The source archive has no library: COOKIE_STORE_LIBRARY names it.
sdist_installs() {
    (cd bindings/python && python3 -c "import build_backend; build_backend.build_sdist('$temp')") &&
        installs_into "$temp/pip_sdist" "$temp"/cookie_store-*.tar.gz
}

types_check() { (cd bindings/python && mypy --strict --python-executable /usr/bin/python3 --cache-dir "$temp/mypy"); }

# Python's own leaks do not count: only a report that names the library. The word `python3` may be a script.
python_tests_lose_nothing() {
    local python3
    python3=$(python3 -c 'import sys; print(sys.executable)')
    PYTHONMALLOC=malloc with_package valgrind --leak-check=full --log-file="$temp/valgrind" "$python3" -m unittest test_store &&
        grep -q 'HEAP SUMMARY' "$temp/valgrind" && ! grep -B 20 -A 20 -E 'cookie_store_[a-z]|libcookie_store' "$temp/valgrind"
}

if command -v python3 > /dev/null; then
    try 'installed package' finds_library || true
    unit_tests python3 || true
    if [ "$(command -v python3)" != /usr/bin/python3 ] &&
        { can_import /usr/bin/python3 httpx aiohttp || can_import /usr/bin/python3 redis; }; then
        unit_tests /usr/bin/python3 || true
    fi
    one_can_import httpx aiohttp || skips 'unit tests of httpx and aiohttp' 'no Python has both'
    one_can_import redis || skips 'unit tests with Redis' 'no Python has the package redis'
    if can_import python3 pip; then
        try 'pip wheel' pip_builds || true
        try 'pip install ./bindings/python' pip_installs || true
        try 'pip install of the source archive' sdist_installs || true
    else
        skips 'pip install' 'Python has no pip'
    fi
    if command -v mypy > /dev/null && can_import /usr/bin/python3 httpx aiohttp requests; then
        try 'mypy --strict' types_check || true
    else
        skips mypy 'there is no mypy, requests, httpx or aiohttp'
    fi
    if can_import python3 requests && command -v openssl > /dev/null; then
        try 'Python, fetch.py' with_package "$root/tools/bindings_parts/scenario.py" python3 ../examples/fetch.py || true
    else
        skips 'Python, fetch.py' 'there is no requests or openssl'
    fi
    [ -z "${valgrind[*]:-}" ] || try 'Python under valgrind' python_tests_lose_nothing || true
else
    skips Python 'there is no python3'
fi
