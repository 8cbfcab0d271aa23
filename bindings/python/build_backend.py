"""Builds the wheel and the source archive of cookie_store, PEP 517, with the standard library alone.

The wheel has the C library that COOKIE_STORE_LIBRARY names, or else the one that tools/install of the
repository builds. Built twice of the same files a wheel has the same bytes; SOURCE_DATE_EPOCH is the
time of the files in it.
"""
import base64
import contextlib
import gzip
import hashlib
import io
import os
import re
import shutil
import subprocess
import sys
import sysconfig
import tarfile
import tempfile
import time
import zipfile

HERE = os.path.dirname(os.path.abspath(__file__))
ROOT = os.path.dirname(os.path.dirname(HERE))
LIBRARY = 'libcookie_store.so.0'
EARLIEST = 315532800  # 1980-01-01, of which zip files know no earlier time
METADATA = '''Metadata-Version: 2.1
Name: cookie-store
Version: {version}
Summary: An HTTP cookie store after RFC 6265, with a proved C library
License: MIT OR Apache-2.0
Requires-Python: >=3.8
Classifier: Intended Audience :: Developers
Classifier: License :: OSI Approved :: Apache Software License
Classifier: License :: OSI Approved :: MIT License
Classifier: Operating System :: POSIX :: Linux
Classifier: Programming Language :: Python :: 3 :: Only
Classifier: Topic :: Internet :: WWW/HTTP
Classifier: Typing :: Typed
Description-Content-Type: text/markdown

{description}'''


def read(*parts):
    with open(os.path.join(*parts), 'rb') as file:
        return file.read()


def in_repository():
    """Return whether this folder is that of the repository, and not of a source archive."""
    return not os.path.exists(os.path.join(HERE, 'PKG-INFO'))


def metadata():
    """Return the version and the file METADATA."""
    if not in_repository():
        text = read(HERE, 'PKG-INFO')
        return re.search(rb'^Version: (\S+)', text, re.M)[1].decode(), text
    version = read(ROOT, 'VERSION').decode().strip()
    return version, METADATA.format(version=version, description=read(HERE, 'README.md').decode()).encode()


def licenses():
    """Return pairs of a name and the content of a file."""
    folder = ROOT if in_repository() else HERE
    return [(name, read(folder, name)) for name in ('LICENSE-APACHE', 'LICENSE-MIT')]


def package():
    """Return pairs of a name and the content of a file."""
    names = sorted(os.listdir(os.path.join(HERE, 'cookie_store')))
    return [(f'cookie_store/{name}', read(HERE, 'cookie_store', name)) for name in names if name.endswith(('.py', '.typed'))]


def library():
    """Return the content of the C library."""
    named = os.environ.get('COOKIE_STORE_LIBRARY')
    if named:
        return read(named)
    if not in_repository():
        sys.exit('cookie_store: COOKIE_STORE_LIBRARY must name the C library')
    if shutil.which('rt') is None and not os.environ.get('COOKIE_STORE_ARCHIVE'):
        sys.exit('cookie_store: the C library is built by the toolchain, and rt is not on the path: name a built library by '
                 'COOKIE_STORE_LIBRARY=FILE, or install the wheel of the release archive')
    # These would have the files written elsewhere.
    variables = {name: value for name, value in os.environ.items() if name not in ('DESTDIR', 'PYTHONDIR')}
    with tempfile.TemporaryDirectory() as folder:
        install = [os.path.join(ROOT, 'tools', 'install'), folder]
        if subprocess.run(install, check=False, stdout=sys.stderr, env=variables).returncode:
            sys.exit('cookie_store: the C library is not built: see the messages of tools/install above')
        return read(folder, 'lib', LIBRARY)


def file_time():
    return max(EARLIEST, int(os.environ.get('SOURCE_DATE_EPOCH', EARLIEST)))


def digest(content):
    return base64.urlsafe_b64encode(hashlib.sha256(content).digest()).decode().rstrip('=')


def build_wheel(wheel_directory, config_settings=None, metadata_directory=None):
    version, text = metadata()
    tag = f'py3-none-{re.sub("[-.]", "_", sysconfig.get_platform())}'
    info = f'cookie_store-{version}.dist-info'
    wheel = f'Wheel-Version: 1.0\nGenerator: cookie_store {version}\nRoot-Is-Purelib: false\nTag: {tag}\n'
    files = [*package(), (f'cookie_store/{LIBRARY}', library()), (f'{info}/METADATA', text), (f'{info}/WHEEL', wheel.encode()),
             *((f'{info}/licenses/{name}', content) for name, content in licenses())]
    record = ''.join(f'{name},sha256={digest(content)},{len(content)}\n' for name, content in files) + f'{info}/RECORD,,\n'
    name = f'cookie_store-{version}-{tag}.whl'
    with zipfile.ZipFile(os.path.join(wheel_directory, name), 'w', zipfile.ZIP_DEFLATED) as archive:
        for path, content in [*files, (f'{info}/RECORD', record.encode())]:
            entry = zipfile.ZipInfo(path, time.gmtime(file_time())[:6])
            entry.compress_type, entry.external_attr = zipfile.ZIP_DEFLATED, 0o100644 << 16
            archive.writestr(entry, content)
    return name


def build_sdist(sdist_directory, config_settings=None):
    version, text = metadata()
    base = f'cookie_store-{version}'
    own = [(name, read(HERE, name)) for name in ('README.md', 'build_backend.py', 'pyproject.toml')]
    name = f'{base}.tar.gz'
    with open(os.path.join(sdist_directory, name), 'wb') as out, contextlib.ExitStack() as stack:
        packed = stack.enter_context(gzip.GzipFile('', 'wb', 9, out, file_time()))
        archive = stack.enter_context(tarfile.open(fileobj=packed, mode='w', format=tarfile.PAX_FORMAT))
        for path, content in [*package(), *own, *licenses(), ('PKG-INFO', text)]:
            entry = tarfile.TarInfo(f'{base}/{path}')
            entry.size, entry.mtime, entry.mode = len(content), file_time(), 0o644
            archive.addfile(entry, io.BytesIO(content))
    return name
