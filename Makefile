# Installs squall: the program with its man page and completions for shells, the library with its header, the documents
# and the sources of the bindings.
#
#   make install [PREFIX=/usr/local] [DESTDIR=]    copies; nothing is built
#   make uninstall ..                              removes what that copied, with the same words
#
# Beside an unpacked archive of the release it takes what lies there. In a checkout it takes the release if the sources
# are those of the release, and stops with the reason if they are not. What is installed is listed in INSTALLED, so
# `make uninstall` needs neither: it removes what the list names, and folders that `make install` made, if they are empty.

PREFIX = /usr/local
DESTDIR =
BINDIR = $(PREFIX)/bin
LIBDIR = $(PREFIX)/lib
INCLUDEDIR = $(PREFIX)/include
DATADIR = $(PREFIX)/share
BASHDIR = $(DATADIR)/bash-completion/completions
ZSHDIR = $(DATADIR)/zsh/site-functions
FISHDIR = $(DATADIR)/fish/vendor_completions.d
# A path a line, without DESTDIR. That of a folder ends with a slash.
INSTALLED = $(DATADIR)/squall/installed

# Found when something is installed, and then once.
FROM = $(eval FROM := $(if $(wildcard libsquall.a),.,$(shell tools/releasing/released all)))$(FROM)
SONAME = $(shell cd "$(FROM)" && echo libsquall.so.*)
# The folder below which `stage` makes all that is installed.
STAGE =
# By a name of its own, so that `make -n` runs nothing.
AGAIN = $(MAKE) -s --no-print-directory

.PHONY: help install stage uninstall

help:
	@echo 'make install [PREFIX=$(PREFIX)] [DESTDIR=]   or   make uninstall, with the same words'

# Of an earlier version only the documents go: its shared library may be in use. The list keeps what it installed.
install:
	@test -n "$(FROM)"
	@set -e; umask 022; work=$$(mktemp -d); trap 'rm -rf "$$work"' EXIT; stage=$$work/stage; \
	$(AGAIN) stage FROM="$(FROM)" STAGE="$$stage"; \
	cat "$(DESTDIR)$(INSTALLED)" > "$$work/list" 2> /dev/null || true; \
	rm -rf "$(DESTDIR)$(DATADIR)/doc/squall" "$(DESTDIR)$(DATADIR)/squall"; \
	(cd "$$stage" && find . -mindepth 1 -type d) | sed 's|^\.||' | while IFS= read -r it; do \
	  test -d "$(DESTDIR)$$it" || { install -d "$(DESTDIR)$$it" && echo "$$it/"; } >> "$$work/list"; \
	done; \
	(cd "$$stage" && find . ! -type d) | sed 's|^\.||' | while IFS= read -r it; do \
	  cp -P --remove-destination "$$stage$$it" "$(DESTDIR)$$it" && echo "$$it" >> "$$work/list"; \
	done; \
	LC_ALL=C sort -u "$$work/list" > "$(DESTDIR)$(INSTALLED)"; \
	echo 'installed what $(DESTDIR)$(INSTALLED) lists'

# Python may have compiled modules that were installed.
uninstall:
	@set -e; list="$(DESTDIR)$(INSTALLED)"; \
	test -r "$$list" || { echo "squall: what to remove is not known: there is no $$list" >&2; exit 1; }; \
	folders=$$(grep '/$$' "$$list" | LC_ALL=C sort -r); \
	grep -v '/$$' "$$list" | while IFS= read -r it; do rm -f "$(DESTDIR)$$it"; done; \
	rm -f "$$list"; \
	echo "$$folders" | while IFS= read -r it; do \
	  test ! -d "$(DESTDIR)$$it" || \
	    { rm -rf "$(DESTDIR)$${it}__pycache__" && rmdir --ignore-fail-on-non-empty "$(DESTDIR)$$it"; }; \
	done

# Links let documents find each other, as they do in the archive.
stage:
	install -d "$(STAGE)$(BINDIR)" "$(STAGE)$(INCLUDEDIR)" "$(STAGE)$(LIBDIR)/pkgconfig" \
	  "$(STAGE)$(DATADIR)/man/man1"
	install -m 755 "$(FROM)/squall" "$(STAGE)$(BINDIR)/squall"
	install -m 644 "$(FROM)/docs/squall.1" "$(STAGE)$(DATADIR)/man/man1/squall.1"
	if [ -d "$(FROM)/completions" ]; then \
	  install -d "$(STAGE)$(BASHDIR)" "$(STAGE)$(ZSHDIR)" "$(STAGE)$(FISHDIR)" && \
	  install -m 644 "$(FROM)/completions/squall" "$(STAGE)$(BASHDIR)/squall" && \
	  install -m 644 "$(FROM)/completions/_squall" "$(STAGE)$(ZSHDIR)/_squall" && \
	  install -m 644 "$(FROM)/completions/squall.fish" "$(STAGE)$(FISHDIR)/squall.fish"; \
	fi
	install -m 644 "$(FROM)/squall.h" "$(STAGE)$(INCLUDEDIR)/squall.h"
	install -m 644 "$(FROM)/libsquall.a" "$(FROM)/$(SONAME)" "$(STAGE)$(LIBDIR)/"
	ln -sfn "$(SONAME)" "$(STAGE)$(LIBDIR)/libsquall.so"
	sed -e 's|^prefix=.*|prefix=$(PREFIX)|' -e 's|^includedir=.*|includedir=$(INCLUDEDIR)|' \
	  -e 's|^libdir=.*|libdir=$(LIBDIR)|' -e 's|-I\(.*\)|-I"\1"|' -e 's|-L\([^ ]*\)|-L"\1"|' \
	  "$(FROM)/squall.pc" > "$(STAGE)$(LIBDIR)/pkgconfig/squall.pc"
	install -d "$(STAGE)$(DATADIR)/doc/squall" "$(STAGE)$(DATADIR)/squall"
	for it in CHANGELOG.md NOTICES docs; do cp -R "$(FROM)/$$it" "$(STAGE)$(DATADIR)/doc/squall/"; done
	rm "$(STAGE)$(DATADIR)/doc/squall/docs/squall.1"
	for it in bindings examples integrations; do \
	  [ ! -d "$(FROM)/$$it" ] || { cp -R "$(FROM)/$$it" "$(STAGE)$(DATADIR)/squall/" && \
	    ln -s "../../squall/$$it" "$(STAGE)$(DATADIR)/doc/squall/$$it"; }; \
	done
	if [ -d "$(FROM)/redis" ]; then \
	  install -D -m 644 "$(FROM)/redis/README.md" "$(STAGE)$(DATADIR)/squall/redis/README.md" && \
	  ln -s ../../squall/redis "$(STAGE)$(DATADIR)/doc/squall/redis"; \
	fi
	ln -s ../doc/squall/docs "$(STAGE)$(DATADIR)/squall/docs"
	chmod -R u+rwX,go+rX-w "$(STAGE)$(DATADIR)/doc/squall" "$(STAGE)$(DATADIR)/squall" \
	  "$(STAGE)$(LIBDIR)/pkgconfig/squall.pc"
