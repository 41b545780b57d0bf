# Builds and installs the library, for C and C++, and the command desk. For GNU Make, on x86-64 Linux.
#
#   make              builds libjudge.a, libjudge.so and desk
#   make check        the tests that need no prover
#   make install      PREFIX=/usr/local and DESTDIR= say where to; docs/DESK.md has what goes where
#   make uninstall    with the same variables: removes what `make install` has put there
#   make install-python, make uninstall-python    the same for the package of Python, which `make install` leaves out
#
# Paths may have blanks. `make install` builds what is missing or older than its sources, and nothing else, so that after a
# `make` it can be run by another user.

PREFIX ?= /usr/local
BINDIR ?= $(PREFIX)/bin
LIBDIR ?= $(PREFIX)/lib
INCLUDEDIR ?= $(PREFIX)/include
DATADIR ?= $(PREFIX)/share
MANDIR ?= $(DATADIR)/man
DOCDIR ?= $(DATADIR)/doc/judge
PKGCONFIGDIR ?= $(LIBDIR)/pkgconfig
BASHDIR ?= $(DATADIR)/bash-completion/completions
ZSHDIR ?= $(DATADIR)/zsh/site-functions
FISHDIR ?= $(DATADIR)/fish/vendor_completions.d
VIMDIR ?= $(DATADIR)/vim/vimfiles
# Python is asked only where this is used.
PYTHONDIR ?= $(shell $(PYTHON) packaging/pythondir.py "$(PREFIX)")

CARGO ?= cargo
PYTHON ?= python3
RT ?= rt
# What proves the library and builds its archive.
PROVE ?= RT='$(RT)' tools/archive.sh
INSTALL ?= install
INSTALL_PROGRAM ?= $(INSTALL) -m 755
INSTALL_DATA ?= $(INSTALL) -m 644

# One number for all of it; tests/install.sh compares it with what the header, the manual pages and desk say.
VERSION := $(shell sed -n 's/^version = "\(.*\)"$$/\1/p' Cargo.toml)
SONAME := libjudge.so.$(firstword $(subst ., ,$(VERSION)))

ARCHIVE := target/staticlib/libjudge.a
SHARED := target/shared/$(SONAME)
DESK := target/cargo/release/desk
SUBJECTS := vocabulary comparison classification script writer
VIM := compiler/desk.vim ftdetect/judge.vim ftplugin/judge.vim syntax/judge.vim
PACKAGE := $(wildcard python/judge/*.py) python/judge/py.typed

CRATES := $(addprefix crates/,judge $(shell sed -n 's/^judge staticlib: //p' crates.txt))
# What `rt` keeps in a crate's out/ is made of these.
PROVED := crates.txt $(shell find $(CRATES) -name out -prune -o -type f -print)
RUST := Cargo.toml Cargo.lock $(shell find rust/*/src rust/*/build.rs rust/*/Cargo.toml -type f)

all: $(ARCHIVE) $(SHARED) $(DESK)

help:
	@sed -n '/^#/!q; s/^# \{0,1\}//p' Makefile

# `rt` proves it first. The script leaves an archive that is as it should be untouched, and cargo desk: hence the touches.
$(ARCHIVE): $(PROVED)
	$(PROVE)
	touch $@

# The archive's objects are position independent. Nothing but the eight calls can be seen from outside.
$(SHARED): $(ARCHIVE) packaging/judge.map
	mkdir -p target/shared
	$(CC) $(CFLAGS) -shared -Wl,-soname,$(SONAME) -Wl,--version-script=packaging/judge.map -Wl,-z,defs -Wl,-z,now \
		-Wl,-z,text -Wl,-z,noexecstack $(LDFLAGS) -Wl,--whole-archive $(ARCHIVE) -Wl,--no-whole-archive -o $@

$(DESK): $(ARCHIVE) $(RUST)
	$(CARGO) build --release --locked --package desk --target-dir target/cargo
	touch $@

check: check-c check-rust check-install check-python check-editors
	@echo 'passed: the tests that need no prover; the whole gate, which proves everything, is: bash .ci/run'

# The calls from C over the stored cases.
check-c: $(SUBJECTS:%=target/check/%)
	@for subject in $(SUBJECTS); do \
		target/check/$$subject crates/$${subject}_cases/stdin crates/$${subject}_cases/stdout || exit; \
	done

target/check/%: tests/%.c tests/cases.h tests/guarded.h tests/lent.h include/judge.h $(ARCHIVE)
	@mkdir -p target/check
	$(CC) -O2 -Wall -Wextra -Werror -Iinclude -o $@ $< $(ARCHIVE)

check-rust: $(ARCHIVE)
	$(CARGO) test --release --quiet --locked --target-dir target/cargo

check-install: all
	tests/install.sh

check-python: $(SHARED)
	tests/python.sh "$(PYTHON)"

check-editors: $(DESK)
	tests/editors.sh

install: all
	$(INSTALL) -d "$(DESTDIR)$(BINDIR)" "$(DESTDIR)$(LIBDIR)" "$(DESTDIR)$(INCLUDEDIR)" "$(DESTDIR)$(PKGCONFIGDIR)" \
		"$(DESTDIR)$(MANDIR)/man1" "$(DESTDIR)$(MANDIR)/man3" "$(DESTDIR)$(DOCDIR)" "$(DESTDIR)$(BASHDIR)" \
		"$(DESTDIR)$(ZSHDIR)" "$(DESTDIR)$(FISHDIR)"
	$(INSTALL_PROGRAM) $(DESK) "$(DESTDIR)$(BINDIR)/desk"
	$(INSTALL_DATA) $(ARCHIVE) "$(DESTDIR)$(LIBDIR)/libjudge.a"
	$(INSTALL_PROGRAM) $(SHARED) "$(DESTDIR)$(LIBDIR)/libjudge.so.$(VERSION)"
	ln -sf libjudge.so.$(VERSION) "$(DESTDIR)$(LIBDIR)/$(SONAME)"
	ln -sf $(SONAME) "$(DESTDIR)$(LIBDIR)/libjudge.so"
	$(INSTALL_DATA) include/judge.h "$(DESTDIR)$(INCLUDEDIR)/judge.h"
	packaging/pkgconfig.sh "$(VERSION)" "$(PREFIX)" "$(LIBDIR)" "$(INCLUDEDIR)" > "$(DESTDIR)$(PKGCONFIGDIR)/judge.pc"
	chmod 644 "$(DESTDIR)$(PKGCONFIGDIR)/judge.pc"
	$(INSTALL_DATA) man/desk.1 "$(DESTDIR)$(MANDIR)/man1/desk.1"
	$(INSTALL_DATA) man/judge.3 "$(DESTDIR)$(MANDIR)/man3/judge.3"
	$(INSTALL_DATA) completions/desk.bash "$(DESTDIR)$(BASHDIR)/desk"
	$(INSTALL_DATA) completions/_desk "$(DESTDIR)$(ZSHDIR)/_desk"
	$(INSTALL_DATA) completions/desk.fish "$(DESTDIR)$(FISHDIR)/desk.fish"
	$(INSTALL_DATA) docs/DESK.md docs/FORMATS.md docs/counter-model.svg "$(DESTDIR)$(DOCDIR)"
	for file in $(VIM); do \
		$(INSTALL) -d "$(DESTDIR)$(VIMDIR)/$${file%/*}" && \
		$(INSTALL_DATA) "editors/vim/$$file" "$(DESTDIR)$(VIMDIR)/$$file" || exit; \
	done

# Directories that others use too go where they are empty, but for those that every system has: bin, lib, include, share,
# share/man and share/doc.
uninstall:
	rm -f "$(DESTDIR)$(BINDIR)/desk" "$(DESTDIR)$(LIBDIR)/libjudge.a" "$(DESTDIR)$(LIBDIR)/libjudge.so.$(VERSION)" \
		"$(DESTDIR)$(LIBDIR)/$(SONAME)" "$(DESTDIR)$(LIBDIR)/libjudge.so" "$(DESTDIR)$(INCLUDEDIR)/judge.h" \
		"$(DESTDIR)$(PKGCONFIGDIR)/judge.pc" "$(DESTDIR)$(MANDIR)/man1/desk.1" "$(DESTDIR)$(MANDIR)/man3/judge.3" \
		"$(DESTDIR)$(BASHDIR)/desk" "$(DESTDIR)$(ZSHDIR)/_desk" "$(DESTDIR)$(FISHDIR)/desk.fish" \
		"$(DESTDIR)$(DOCDIR)/DESK.md" "$(DESTDIR)$(DOCDIR)/FORMATS.md" \
		"$(DESTDIR)$(DOCDIR)/counter-model.svg"
	@for file in $(VIM); do \
		rm -f "$(DESTDIR)$(VIMDIR)/$$file" && \
		{ rmdir "$(DESTDIR)$(VIMDIR)/$${file%/*}" 2> /dev/null || :; }; \
	done
	@for directory in "$(PKGCONFIGDIR)" "$(MANDIR)/man1" "$(MANDIR)/man3" "$(DOCDIR)" "$(BASHDIR)" "$(DATADIR)/bash-completion" \
		"$(ZSHDIR)" "$(DATADIR)/zsh" "$(FISHDIR)" "$(DATADIR)/fish" "$(VIMDIR)" "$(DATADIR)/vim"; do \
		rmdir "$(DESTDIR)$$directory" 2> /dev/null || :; \
	done

# The package finds the library that `make install` with the same PREFIX has put there.
install-python: python-directory
	$(INSTALL) -d "$(DESTDIR)$(PYTHONDIR)/judge"
	$(INSTALL_DATA) $(PACKAGE) "$(DESTDIR)$(PYTHONDIR)/judge"

# Python keeps what it has compiled beside the package.
uninstall-python: python-directory
	@directory="$(DESTDIR)$(PYTHONDIR)"; \
	for file in $(PACKAGE:python/%=%); do rm -f "$$directory/$$file"; done; \
	rm -rf "$$directory/judge/__pycache__"; \
	rmdir "$$directory/judge" "$$directory" "$${directory%/*}" 2> /dev/null || :

python-directory:
	@[ -n "$(PYTHONDIR)" ] || { echo '$(PYTHON) does not say where its packages are; PYTHONDIR=.. can'; exit 1; }

.PHONY: all help check check-c check-rust check-install check-python check-editors install uninstall install-python \
	uninstall-python python-directory
.DELETE_ON_ERROR:
