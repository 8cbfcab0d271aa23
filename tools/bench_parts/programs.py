"""The program and its peers, which are built into a temporary folder."""
import os
import platform
import shutil
import subprocess
import sys

from bench_parts.measure import Program
from common import ARCHIVE, ROOT, c_compiler, compile_c, first_match, install, output, stop

PEERS = os.path.join(ROOT, 'tools', 'peers')
REGISTRY = '/usr/share/cargo/registry'
OWN, RUST, GO = 'cookie_jar', 'Rust crate', 'Go'


def own(path):
    if not os.access(path, os.X_OK):
        stop(f'{path} is not built: run rt run in crates/cookie_jar')
    path = os.path.realpath(path)
    return Program(OWN, (path,), os.path.relpath(path, ROOT) if path.startswith(ROOT) else 'another build')


def python_jar():
    """Python's http.cookiejar."""
    version = platform.python_version()
    path = os.path.join(os.path.dirname(os.path.abspath(__file__)), 'jar.py')
    return Program(f'http.cookiejar of Python {version}', (sys.executable, '-I', path), version)


class Missing(Exception):
    """Why a peer cannot be built."""


def build(folder):
    """The peers that can be built, and a line for each that cannot."""
    peers, missing = [], []
    for name, builder in ((RUST, build_rust), (GO, build_go)):
        try:
            peers.append(builder(folder))
        except Missing as why:
            missing.append(f'{name} is not measured: {why}.')
    return peers, missing


def build_rust(folder):
    registry = os.listdir(REGISTRY) if os.path.isdir(REGISTRY) else []
    for crate, package in (('cookie_store', 'librust-cookie-store-dev'), ('ron', 'librust-ron-dev')):
        if not any(name.startswith(f'{crate}-') for name in registry):
            raise Missing(f'{package} is not installed')
    source = os.path.join(folder, 'rust')
    shutil.copytree(os.path.join(PEERS, 'rust'), source)
    run_compiler('cargo', 'build', '--release', '--offline', cwd=source)
    with open(os.path.join(source, 'Cargo.lock')) as lock:
        version = first_match(r'name = "cookie_store"\nversion = "(.*)"', lock.read())[1]
    version = f'cookie_store {version} with preserve_order, LTO, {output("rustc", "--version", cwd=source)}'
    return Program(RUST, (os.path.join(source, 'target', 'release', 'peer'),), version)


def build_go(folder):
    path = os.path.join(folder, 'jar')
    run_compiler('go', 'build', '-o', path, os.path.join(PEERS, 'go', 'jar.go'), cwd=folder)
    return Program(GO, (path,), f'net/http/cookiejar, {output("go", "version")}')


def build_strict(folder):
    """A strict store of the C library, which runs the sets of a script. None if the library is not built."""
    if not (c_compiler() and os.path.exists(ARCHIVE)):
        return None
    prefix = os.path.join(folder, 'prefix')
    install(prefix, ARCHIVE)
    path = compile_c(os.path.join(folder, 'strict'), '-std=c11', 'tools/bench_parts/strict.c', '-I', f'{prefix}/include',
                     '-L', f'{prefix}/lib', '-lcookie_store', f'-Wl,-rpath,{prefix}/lib')
    return Program(OWN, (path,), 'C library')


def run_compiler(*command, cwd):
    if not shutil.which(command[0]):
        raise Missing(f'{command[0]} is not installed')
    done = subprocess.run(command, cwd=cwd, stdout=subprocess.PIPE, stderr=subprocess.STDOUT, text=True)
    if done.returncode:
        raise Missing(f'{command[0]} fails: {done.stdout.strip().splitlines()[-1]}')


def build_collisions(folder):
    """The path of tools/collisions, or None without a C compiler."""
    return compile_c(os.path.join(folder, 'collisions'), '-O3', 'tools/collisions.c') if c_compiler() else None
