# Installs and tests the C library and its bindings by the tools in tools/. `make` lists the targets.

PREFIX = /usr/local
PYTHONDIR = $(PREFIX)/lib/python3/dist-packages
to = $(DESTDIR)$(PREFIX)

.PHONY: help install uninstall bindings check

help:
	@echo 'make install    builds and installs the C library, the Python package and the program cookies'
	@echo 'make uninstall  removes them'
	@echo 'make bindings   tests the C library and the bindings'
	@echo 'make check      proves and tests everything'
	@echo 'Variables of the first two: PREFIX=$(PREFIX), DESTDIR, PYTHONDIR=$(PYTHONDIR).'
	@echo 'COOKIE_STORE_ARCHIVE=FILE names a built library; without it, it is proved and built first.'

install:
	DESTDIR='$(DESTDIR)' PYTHONDIR='$(PYTHONDIR)' tools/install '$(PREFIX)'

uninstall:
	rm -f '$(to)'/lib/libcookie_store.* '$(to)/lib/pkgconfig/cookie_store.pc' '$(to)/include/cookie_store.h' \
	    '$(to)/share/man/man3/cookie_store.3' '$(to)/share/man/man1/cookies.1' \
	    '$(to)/share/bash-completion/completions/cookies' '$(to)/bin/cookies'
	rm -rf '$(DESTDIR)$(PYTHONDIR)/cookie_store'

bindings:
	tools/bindings

check:
	tools/test
