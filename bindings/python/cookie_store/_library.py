"""Finds and loads the C library, and declares its functions."""
from __future__ import annotations

import ctypes
import ctypes.util
import os
import struct
from typing import Any, Dict, Iterator, List, Tuple


class Store(ctypes.Structure):
    """The struct cookie_store of cookie_store.h."""
    _fields_ = [('live', ctypes.c_bool), ('strict', ctypes.c_bool), ('at', ctypes.c_void_p)]


class Row(ctypes.Structure):
    """The struct cookie_store_row of cookie_store.h."""
    _fields_ = [('domain_len', ctypes.c_size_t), ('path_len', ctypes.c_size_t), ('name_len', ctypes.c_size_t),
                ('value_len', ctypes.c_size_t), ('expires', ctypes.c_int64), ('persistent', ctypes.c_bool),
                ('host_only', ctypes.c_bool), ('has_path', ctypes.c_bool), ('secure', ctypes.c_bool),
                ('http_only', ctypes.c_bool), ('same_site', ctypes.c_uint32)]


#: The same layout as Row: reading it in one go is faster than by its fields.
ROW = struct.Struct('@4Nq5?I4x')

#: The values of a SameSite attribute, by their numbers in enum cookie_store_same_site of cookie_store.h.
SAME_SITES = (None, 'Strict', 'Lax', 'None')

#: The flags of enum cookie_store_cross_site of cookie_store.h.
TOP_LEVEL, NONE_BY_DEFAULT = 1, 2

_AT = ctypes.POINTER(Store)
# A status, another number of an enum, or flags.
_NUMBER = ctypes.c_uint32
_TEXT = [ctypes.c_char_p, ctypes.c_size_t]
_OUT = [ctypes.POINTER(ctypes.c_char), ctypes.c_size_t]
_LENGTH = ctypes.POINTER(ctypes.c_size_t)
_ROWS = [ctypes.POINTER(Row), ctypes.c_size_t, *_OUT, _LENGTH, _LENGTH]

#: Result and argument types of each function in cookie_store.h.
SIGNATURES: Dict[str, Tuple[Any, List[Any]]] = {
    'cookie_store_new': (_NUMBER, [_AT, *_TEXT]),
    'cookie_store_clone': (_NUMBER, [_AT, _AT]),
    'cookie_store_free': (None, [_AT]),
    'cookie_store_set_suffix_list': (_NUMBER, [_AT, *_TEXT, ctypes.c_bool, _LENGTH]),
    'cookie_store_set_domain_limit': (_NUMBER, [_AT, ctypes.c_size_t]),
    'cookie_store_domain_limit': (ctypes.c_size_t, [_AT]),
    'cookie_store_set_strict': (_NUMBER, [_AT, ctypes.c_bool]),
    'cookie_store_is_strict': (ctypes.c_bool, [_AT]),
    'cookie_store_set_hash_key': (_NUMBER, [_AT, *_TEXT]),
    'cookie_store_parse': (_NUMBER, [_AT, *_TEXT, *_TEXT, ctypes.c_int64]),
    'cookie_store_parse_each': (_NUMBER, [_AT, *_TEXT, *_TEXT, _LENGTH, ctypes.c_size_t, ctypes.c_int64, ctypes.POINTER(ctypes.c_uint32),
                                          ctypes.c_size_t]),
    'cookie_store_parse_for': (_NUMBER, [_AT, *_TEXT, *_TEXT, *_TEXT, ctypes.c_int64, _NUMBER]),
    'cookie_store_insert': (_NUMBER, [_AT, *_TEXT, *_TEXT, *_TEXT, *_TEXT, ctypes.POINTER(Row), ctypes.c_int64]),
    'cookie_store_header': (_NUMBER, [_AT, *_TEXT, ctypes.c_int64, *_OUT, _LENGTH]),
    'cookie_store_header_cross_site': (_NUMBER, [_AT, *_TEXT, ctypes.c_int64, _NUMBER, *_OUT, _LENGTH]),
    'cookie_store_header_for': (_NUMBER, [_AT, *_TEXT, *_TEXT, ctypes.c_int64, _NUMBER, *_OUT, _LENGTH]),
    'cookie_store_remove': (_NUMBER, [_AT, *_TEXT, *_TEXT, *_TEXT]),
    'cookie_store_remove_domain': (_NUMBER, [_AT, *_TEXT, _LENGTH]),
    'cookie_store_clear': (_NUMBER, [_AT]),
    'cookie_store_remove_expired': (_NUMBER, [_AT, ctypes.c_int64, _LENGTH]),
    'cookie_store_count': (ctypes.c_size_t, [_AT]),
    'cookie_store_rows': (_NUMBER, [_AT, *_ROWS]),
    'cookie_store_cookies_for': (_NUMBER, [_AT, *_TEXT, ctypes.c_int64, *_ROWS]),
    'cookie_store_save': (_NUMBER, [_AT, _NUMBER, _NUMBER, ctypes.c_int64, *_OUT, _LENGTH, _LENGTH]),
    'cookie_store_load': (_NUMBER, [_AT, *_TEXT, _NUMBER, _NUMBER, *_TEXT, ctypes.c_int64, _LENGTH, ctypes.c_size_t, _LENGTH]),
    'cookie_store_merge': (_NUMBER, [_AT, _AT, ctypes.c_int64, _LENGTH]),
    'cookie_store_root': (_NUMBER, [_AT, *_TEXT, *_OUT, _LENGTH]),
    'cookie_store_root_of_domain': (_NUMBER, [_AT, *_TEXT, *_OUT, _LENGTH]),
    'cookie_store_shard': (_NUMBER, [*_TEXT, ctypes.c_uint32, ctypes.POINTER(ctypes.c_uint32)]),
}


def _candidates() -> Iterator[str]:
    """Yield the files that may be the library, preferred ones first."""
    named = os.environ.get('COOKIE_STORE_LIBRARY')
    if named:
        yield named
        return
    here = os.path.dirname(os.path.abspath(__file__))
    for folder in (here, os.path.join(here, '..', '..', '..')):
        path = os.path.join(folder, 'libcookie_store.so.0')
        if os.path.exists(path):
            yield path
    found = ctypes.util.find_library('cookie_store')
    if found:
        yield found


def _load_library() -> ctypes.CDLL:
    path = next(_candidates(), None)
    if path is None:
        raise ImportError('libcookie_store is not found: COOKIE_STORE_LIBRARY can name its file')
    library = ctypes.CDLL(path)
    for name, (result, arguments) in SIGNATURES.items():
        call = getattr(library, name)
        call.restype, call.argtypes = result, arguments
    return library


LIBRARY = _load_library()
