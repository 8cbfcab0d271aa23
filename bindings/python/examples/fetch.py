"""Fetches URLs with requests, and keeps the cookies in a file.

    python3 fetch.py FILE URL..
"""
import os
import sys

import requests

from cookie_store import CookieStore, CookieStoreError
from cookie_store.requests import use_store


def fetch(store, urls):
    """Print the body of each response after redirects."""
    with use_store(requests.Session(), store) as session:
        for url in urls:
            response = session.get(url, timeout=30, verify=os.environ.get('SSL_CERT_FILE', True))
            response.raise_for_status()
            print(response.text)


def main():
    if len(sys.argv) < 3:
        sys.exit('usage: fetch.py FILE URL..')
    path, *urls = sys.argv[1:]
    try:
        store = CookieStore.open(path)
        try:
            fetch(store, urls)
        finally:
            store.save(path)  # session cookies too: a login is usually one
    except (OSError, ValueError, CookieStoreError) as error:  # of the network, or of the file
        sys.exit(f'fetch.py: {error}')


main()
