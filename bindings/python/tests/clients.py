"""A request by each client that is installed, with the cookies of a store, and by the program fetch.py."""
import asyncio
import os
import pathlib
import subprocess
import sys
import urllib.request

from support import SECONDS

import cookie_store
from cookie_store import StoreJar

try:
    import requests

    from cookie_store.requests import use_store as use_in_session
except ImportError:
    requests = None
try:
    import httpx

    from cookie_store.httpx import use_store as use_in_client
except ImportError:
    httpx = None
try:
    import aiohttp

    from cookie_store.aiohttp import StoreCookieJar
except ImportError:
    aiohttp = None


def with_urllib(store, url):
    opener = urllib.request.build_opener(urllib.request.ProxyHandler({}), urllib.request.HTTPCookieProcessor(StoreJar(store)))
    opener.open(url, timeout=SECONDS).close()


def with_requests(store, url):
    with requests.Session() as session:
        session.trust_env = False
        use_in_session(session, store)
        session.get(url, timeout=SECONDS)


def with_httpx(store, url):
    with httpx.Client(follow_redirects=True, trust_env=False, verify=False, timeout=SECONDS) as client:
        use_in_client(client, store)
        client.get(url)


def with_aiohttp(store, url):
    async def run():
        words = {'cookie_jar': StoreCookieJar(store), 'timeout': aiohttp.ClientTimeout(SECONDS)}
        async with aiohttp.ClientSession(**words) as session:
            await (await session.get(url)).read()

    asyncio.run(run())


CLIENTS = [('urllib', with_urllib), *([('requests', with_requests)] if requests else []),
           *([('httpx', with_httpx)] if httpx else []), *([('aiohttp', with_aiohttp)] if aiohttp else [])]

PACKAGE = pathlib.Path(cookie_store.__file__).resolve().parent.parent
FETCH = pathlib.Path(__file__).resolve().parent.parent / 'examples' / 'fetch.py'


def run_fetch(path, url):
    """Run examples/fetch.py with the cookies of a file, whether it succeeds or not."""
    words = {**os.environ, 'no_proxy': '*', 'PYTHONPATH': os.pathsep.join([str(PACKAGE), os.environ.get('PYTHONPATH', '')])}
    subprocess.run([sys.executable, str(FETCH), str(path), url], capture_output=True, timeout=SECONDS, check=False, env=words)
