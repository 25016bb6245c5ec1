# `make help` says what each target does.

PREFIX ?= /usr/local
BINDIR ?= $(PREFIX)/bin
LIBDIR ?= $(PREFIX)/lib
INCLUDEDIR ?= $(PREFIX)/include
MANDIR ?= $(PREFIX)/share/man
DOCDIR ?= $(PREFIX)/share/doc/boruvka
PAGEDIR ?= $(PREFIX)/share/boruvka
BASHDIR ?= $(PREFIX)/share/bash-completion/completions
ZSHDIR ?= $(PREFIX)/share/zsh/site-functions
FISHDIR ?= $(PREFIX)/share/fish/vendor_completions.d
MINUTES ?= 5
RT ?= rt
PROGRAM := crates/boruvka/out/boruvka
BENCH := crates/bench/out/bench
LIBRARY := crates/boruvka_c/out/libboruvka
WITHIN := crates/boruvka_within/out/libboruvka_within.a
WASM := crates/boruvka_within/out/boruvka.wasm
SOURCES := $(shell find crates -path '*/out' -prune -o -type f \( -name '*.rt' -o -name '*.antt' \) -print) crates.txt
VERSION := $(shell sed -n 's/^pub const RELEASE: &str = "\(.*\)";$$/\1/p' crates/program_words/src/version.rt)
MAJOR := $(firstword $(subst ., ,$(VERSION)))
SHARED := libboruvka.so.$(VERSION)
# The files below LIBDIR with which pkg-config and CMake find the libraries.
STAMPED := pkgconfig/boruvka.pc pkgconfig/boruvka_within.pc cmake/boruvka/boruvka-config.cmake cmake/boruvka/boruvka-config-version.cmake
# The documents and examples that the README links to.
DOCUMENTS := LICENSE README.md SECURITY.md CHANGELOG.md CONTRIBUTING.md docs/roads.svg docs/rounds.svg
DOCUMENTS += $(patsubst %,docs/%.md,ARCHITECTURE DECISIONS GR_FORMAT HEADLINE PERFORMANCE PROMISES PROTOCOL RECIPES)
DOCUMENTS += examples/small.gr examples/roads.gr $(addprefix examples/embed/,forest.c forest.cpp forest.py forest.rs within.c)
# (a path may have a space, so it is in single quotes for the shell)
quoted = '$(subst ','\'',$(1))'
BIN = $(call quoted,$(DESTDIR)$(BINDIR))
LIB = $(call quoted,$(DESTDIR)$(LIBDIR))
INCLUDE = $(call quoted,$(DESTDIR)$(INCLUDEDIR))
MAN = $(call quoted,$(DESTDIR)$(MANDIR))/man1
DOC = $(call quoted,$(DESTDIR)$(DOCDIR))
PAGE = $(call quoted,$(DESTDIR)$(PAGEDIR))
BASH_COMPLETIONS = $(call quoted,$(DESTDIR)$(BASHDIR))
ZSH_COMPLETIONS = $(call quoted,$(DESTDIR)$(ZSHDIR))
FISH_COMPLETIONS = $(call quoted,$(DESTDIR)$(FISHDIR))

.PHONY: help try run lib wasm page postgres test web-test wrong soak built install install-program install-libraries install-page install-documents uninstall dist may-pack bench clean

# Each command runs its own jobs in parallel, as far as the machine allows.
.NOTPARALLEL:

help:
	@echo 'make run        prove and build the program, and run it on examples/small.gr'
	@echo 'make test       prove and test everything, as CI does'
	@echo 'make try        run the program on examples/small.gr without any proof, with memory checks; takes about two minutes'
	@echo 'make lib        prove and build libboruvka.a, libboruvka.so and libboruvka_within.a; needs a C compiler and binutils'
	@echo 'make wasm       prove and build the WebAssembly module boruvka.wasm'
	@echo 'make page       pack the web page with the module into dist/boruvka.html, which a browser opens'
	@echo 'make postgres   build the extension of postgres/ for PostgreSQL; needs the headers of its server and a C compiler;'
	@echo '                `make -C postgres installcheck` tests it on a server of its own, `make -C postgres install` installs it'
	@echo 'make install    copy what is built, with header, manual page, completions, licence and documents, below PREFIX=$(PREFIX);'
	@echo '                BINDIR, LIBDIR, INCLUDEDIR, MANDIR and DOCDIR name other folders, DESTDIR is put before each of them'
	@echo 'make uninstall  remove what was installed; pass the same variables'
	@echo 'make dist       prove, build and pack version $(VERSION) into dist/: a .tar.gz, a wheel for Python, and .deb packages if there is dpkg-deb;'
	@echo '                it needs `make test` to have passed on this commit, or UNPROVED=1'
	@echo 'make wrong      try the wrong bodies of wrong-bodies/; SINCE=origin/main tries those of the crates that changed since'
	@echo 'make web-test   test only the page; needs Chromium with its driver, Node and the module'
	@echo 'make soak       compare the program with a reference on random cases for MINUTES=$(MINUTES), and for as long the Python package,'
	@echo '                if numpy is there; needs Python 3 and a C compiler'
	@echo 'make bench      compare its speed with a C++ program; needs Python 3, a C++17 compiler and GNU time'
	@echo 'make clean      remove what was built, what was proved (out/ of each crate) and dist/'

# (`rt try` writes no file, and gives the program only the files that are named)
try:
	@python3 tools/toolchain.py
	@echo 'Nothing is proved yet: this run only has checks of memory, of indices and of overflow. It takes about two minutes.' >&2
	@cd crates/boruvka && $(RT) try --data small.gr=../../examples/small.gr -- --plain small.gr

run: $(PROGRAM)
	@$(PROGRAM) examples/small.gr

lib: $(LIBRARY).a $(LIBRARY).so $(WITHIN)
	@echo 'built $(LIBRARY).a, $(LIBRARY).so and $(WITHIN)'

wasm: $(WASM)
	@echo 'built $(WASM)'

page: $(WASM)
	@python3 tools/page.py $(WASM) dist/boruvka.html
	@echo 'built dist/boruvka.html'

postgres: $(LIBRARY).a
	@$(MAKE) -s -C postgres

test:
	@python3 tests/gate.py

web-test: $(PROGRAM) $(WASM)
	@python3 tests/web.py --strict --module $(WASM) --program $(PROGRAM)

wrong:
	@python3 tests/wrong_bodies.py $(if $(SINCE),--since '$(SINCE)')

soak: $(PROGRAM) $(LIBRARY).so
	@python3 tests/soak.py --minutes $(MINUTES) $(PROGRAM)
	@python3 tests/soak_python.py --minutes $(MINUTES) $(LIBRARY).so

# `install` proves and builds nothing, because it often runs as another user. It copies what was built, and reports the rest.
PARTS := $(if $(wildcard $(PROGRAM)),install-program)
PARTS += $(if $(and $(wildcard $(LIBRARY).a),$(wildcard $(dir $(LIBRARY))$(SHARED)),$(wildcard $(WITHIN))),install-libraries)
PARTS += $(if $(wildcard $(WASM)),install-page)

install: built $(PARTS) install-documents

built:
	@$(if $(filter install-program,$(PARTS)),,echo 'The program is not built yet: `make run` proves and builds it.' >&2)
	@$(if $(filter install-libraries,$(PARTS)),,echo 'The libraries are not built yet: `make lib` proves and builds them.' >&2)
	@$(if $(filter install-page,$(PARTS)),,echo 'The page has no module yet: `make wasm` proves and builds it.' >&2)
	@$(if $(strip $(PARTS)),,echo 'So nothing was installed.' >&2; exit 1)

install-program:
	install -d $(BIN) $(MAN) $(BASH_COMPLETIONS) $(ZSH_COMPLETIONS) $(FISH_COMPLETIONS)
	install -m 755 $(call quoted,$(PROGRAM)) $(BIN)/boruvka
	python3 tools/stamp.py page > $(MAN)/boruvka.1
	chmod 644 $(MAN)/boruvka.1
	install -m 644 completions/boruvka.bash $(BASH_COMPLETIONS)/boruvka
	install -m 644 completions/_boruvka $(ZSH_COMPLETIONS)/_boruvka
	install -m 644 completions/boruvka.fish $(FISH_COMPLETIONS)/boruvka.fish

install-libraries:
	install -d $(LIB)/pkgconfig $(LIB)/cmake/boruvka $(INCLUDE)
	install -m 644 $(call quoted,$(LIBRARY).a) $(LIB)/libboruvka.a
	install -m 644 $(call quoted,$(WITHIN)) $(LIB)/libboruvka_within.a
	install -m 755 $(call quoted,$(dir $(LIBRARY))$(SHARED)) $(LIB)/$(SHARED)
	ln -sf $(SHARED) $(LIB)/libboruvka.so.$(MAJOR)
	ln -sf libboruvka.so.$(MAJOR) $(LIB)/libboruvka.so
	install -m 644 include/boruvka.h include/boruvka.hpp $(INCLUDE)
	for it in $(STAMPED); do \
	python3 tools/stamp.py "$${it##*/}" $(call quoted,$(PREFIX)) $(call quoted,$(LIBDIR)) $(call quoted,$(INCLUDEDIR)) > $(LIB)/"$$it" && \
	chmod 644 $(LIB)/"$$it" || exit 1; done

install-page:
	install -d $(PAGE)
	install -m 644 $(call quoted,$(WASM)) $(PAGE)/boruvka.wasm
	python3 tools/page.py $(call quoted,$(WASM)) $(PAGE)/boruvka.html
	chmod 644 $(PAGE)/boruvka.html

install-documents:
	python3 tools/documents.py $(call quoted,$(DESTDIR)) $(call quoted,$(DOCDIR)) $(call quoted,$(INCLUDEDIR)) $(DOCUMENTS)

uninstall:
	rm -f $(BIN)/boruvka $(INCLUDE)/boruvka.h $(INCLUDE)/boruvka.hpp $(MAN)/boruvka.1
	rm -f $(LIB)/libboruvka.a $(LIB)/libboruvka_within.a $(LIB)/libboruvka.so $(LIB)/libboruvka.so.$(MAJOR) $(LIB)/$(SHARED) $(addprefix $(LIB)/,$(STAMPED))
	rm -f $(BASH_COMPLETIONS)/boruvka $(ZSH_COMPLETIONS)/_boruvka $(FISH_COMPLETIONS)/boruvka.fish
	rm -f $(PAGE)/boruvka.wasm $(PAGE)/boruvka.html $(addprefix $(DOC)/,$(DOCUMENTS))
	rmdir $(DOC)/examples/embed $(DOC)/examples $(DOC)/docs $(DOC) $(PAGE) $(LIB)/cmake/boruvka 2> /dev/null || true

# (the check that takes a second comes first)
dist: may-pack $(PROGRAM) lib $(WASM)
	@python3 tools/dist.py

may-pack:
	@python3 tools/dist.py --may

bench: $(PROGRAM) $(BENCH)
	python3 benches/run.py $(PROGRAM) $(BENCH)

clean:
	rm -rf crates/*/out .git/rooms dist

# Results stay in out/ of each crate, and progress goes to standard error.
$(PROGRAM): $(SOURCES)
	@python3 tools/prove.py boruvka
	@touch $(PROGRAM)

$(BENCH): $(SOURCES)
	@python3 tools/prove.py bench
	@touch $(BENCH)

# It calls no allocator: the caller provides the memory.
$(WITHIN): $(SOURCES)
	@python3 tools/prove.py boruvka_within
	@touch $(WITHIN)

$(WASM): $(SOURCES)
	@python3 tools/wasm.py
	@touch $(WASM)

# The crate's own library and the toolchain's few lines over malloc and free, as one object that exports only the calls: another
# library of that toolchain has the same lines.
# (`rt` writes through no symbolic link, so the three names of the shared library are hard links here)
$(LIBRARY).a: $(SOURCES)
	@python3 tools/toolchain.py '$(CC)' ar objcopy
	@rm -f $(LIBRARY).so $(LIBRARY).so.*
	@python3 tools/prove.py boruvka_c
	@cd $(@D) && ar x "$$(dirname "$$($(RT) doc)")/c/liblibc_c.a" heap.pic.o
	@cd $(@D) && $(CC) -r -nostdlib -o boruvka.o -Wl,--whole-archive libboruvka_c.a -Wl,--no-whole-archive heap.pic.o
	@cd $(@D) && objcopy --wildcard --keep-global-symbol='boruvka_*' --strip-unneeded boruvka.o && ar qcsD made.a boruvka.o
	@cd $(@D) && mv made.a $(@F) && rm -f heap.pic.o boruvka.o

# The loader looks for the name with only the first number, the linker for the name without a number.
$(LIBRARY).so: $(LIBRARY).a
	@echo '{ global: boruvka_*; local: *; };' > $(@D)/names
	@rm -f $@ $@.*
	@$(CC) -shared -o $(@D)/$(SHARED) -Wl,--whole-archive $< -Wl,--no-whole-archive -Wl,--version-script=$(@D)/names -Wl,-soname,$(@F).$(MAJOR) -Wl,-z,defs,-z,relro,-z,now,-s
	@ln $(@D)/$(SHARED) $@.$(MAJOR)
	@ln $(@D)/$(SHARED) $@
	@rm -f $(@D)/names
