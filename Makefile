# `make` alone prints the targets. The version stands in VERSION; scripts/version compares it with all the other places.
SHELL = /bin/bash
.SHELLFLAGS = -eu -o pipefail -c
PREFIX = /usr/local
# Where libraries and headers go: LIBDIR=/usr/lib/x86_64-linux-gnu where each architecture has a folder.
LIBDIR = $(PREFIX)/lib
INCLUDEDIR = $(PREFIX)/include
BINDIR = $(PREFIX)/bin
MANDIR = $(PREFIX)/share/man/man1
COMPLETIONS = $(PREFIX)/share/bash-completion/completions
VERSION := $(shell cat VERSION)
# x86_64 or aarch64, for which the compiler makes code.
PROCESSOR := $(firstword $(subst -, ,$(shell $(CC) -dumpmachine 2> /dev/null)))
# The archive that is named, else that of make archive, where it was run, else that of prebuilt/. The program likewise.
BUILT = crates/bitm_c/out/libbitm_c.a
ARCHIVE ?= $(firstword $(wildcard $(BUILT) prebuilt/$(PROCESSOR:x86_64=x86-64-v2)/libbitm_c.a) $(BUILT))
PROGRAM ?= $(firstword $(wildcard $(if $(filter x86_64,$(PROCESSOR)),crates/program_bitm/out/bitm prebuilt/bin/bitm-x86-64)))
SHARED = libbitm_c.so.$(VERSION)
# Before 1.0 a minor version may change what a caller sees.
SONAME = libbitm_c.so.$(basename $(VERSION))
HEADERS = include/bitm.h include/bitm.hpp
HEADERS_CPP = $(wildcard include/bitm/*.hpp)
# What `make install` lays in both folders, and `make uninstall` takes away.
LAID = $(addprefix $(INCLUDEDIR)/,$(patsubst include/%,%,$(HEADERS) $(HEADERS_CPP))) \
    $(addprefix $(LIBDIR)/,libbitm_c.a $(SHARED) $(SONAME) libbitm_c.so pkgconfig/bitm.pc \
    cmake/bitm/bitm-config.cmake cmake/bitm/bitm-config-version.cmake) \
    $(BINDIR)/bitm $(MANDIR)/bitm.1 $(COMPLETIONS)/bitm
# Programs find the shared object where it was laid, but for /usr, where the system looks.
RPATH = $(if $(filter /usr,$(PREFIX)),,-Wl,-rpath,$${libdir} )
# A folder below PREFIX is named by it, so that `pkg-config --define-prefix` can move all of them.
BELOW = $(patsubst $(PREFIX)/%,$${prefix}/%,$(1))
FILL = sed 's|@PREFIX@|$(PREFIX)|; s|@LIBDIR@|$(call BELOW,$(LIBDIR))|; s|@INCLUDEDIR@|$(call BELOW,$(INCLUDEDIR))|; \
    s|@RPATH@|$(RPATH)|; s|@VERSION@|$(VERSION)|; \
    s|@TO_INCLUDE@|$(shell realpath -m --relative-to=$(LIBDIR) $(INCLUDEDIR))|'
IN_BASH = $(shell git ls-files | xargs grep -lE '^\#!.*bash' 2> /dev/null)
IN_PYTHON = $(shell git ls-files '*.py'; git ls-files scripts bench | xargs grep -lE '^\#!.*python3' 2> /dev/null)
IN_C = $(shell git ls-files '*.c' '*.h' '*.hpp' '*.cpp')
IN_CARGO = bindings/rust examples/rust
RUST_LAYOUT = --config max_width=120,use_small_heuristics=Max

help: ## print these lines
	@sed -nE 's/^([a-z-]+):[^#]*## (.*)/\1\t\2/p' Makefile | while IFS=$$'\t' read -r name what; do printf '  make %-15s %s\n' "$$name" "$$what"; done

archive: ## prove and build the C library, crates/bitm_c/out/libbitm_c.a (needs Rattle)
	scripts/archives own

archives: ## prove and build it for each processor, crates/bitm_c/out/*/libbitm_c.a (needs Rattle)
	scripts/archives

bitm: ## prove and build the program bitm, crates/program_bitm/out/bitm (needs Rattle)
	scripts/archives bitm

prebuilt: ## prove and build all of prebuilt/ and the modules for JavaScript, for the last commit (needs Rattle)
	scripts/archives x86-64 x86-64-v2 x86-64-v3 aarch64 wasm64 bitm
	scripts/prebuilt

build: archive ## the same as archive

check: ## prove all crates that changed, without the rest of the gate
	rt all check

test: ## the gate: proofs, mutants, bindings, documents; allow up to two hours
	scripts/test

quick: ## what the change since the last commit touches
	scripts/test --quick

thorough: ## what the gate leaves out because it is slow
	scripts/test --thorough

bench: ## measure this machine, into bench/out; under five minutes once the crates are built
	bench/run

docs: ## the site of documents and references, out/docs/html, without network
	docs/site/build

dist: ## the artefacts of a release, into dist/, for the last commit, of the archives of make archives, else of prebuilt/
	scripts/dist

dist-check: ## try each artefact of dist/ where the repository is hidden
	scripts/dist-check dist

install: ## lay headers, archive, shared object, the program, files for pkg-config and CMake below PREFIX (and DESTDIR)
	@test -f $(ARCHIVE) || { echo "make install: there is no archive $(ARCHIVE). Where ARCHIVE names none, it takes that of 'make archive'"; \
	    echo "(needs Rattle), else that of prebuilt/ for the compiler's processor, $(or $(PROCESSOR),which $(CC) does not say)."; exit 1; }
	mkdir -p $(DESTDIR)$(INCLUDEDIR)/bitm $(DESTDIR)$(LIBDIR)/pkgconfig $(DESTDIR)$(LIBDIR)/cmake/bitm
	install -m 644 $(HEADERS) $(DESTDIR)$(INCLUDEDIR)
	install -m 644 $(HEADERS_CPP) $(DESTDIR)$(INCLUDEDIR)/bitm
	install -m 644 $(ARCHIVE) $(DESTDIR)$(LIBDIR)/libbitm_c.a
	$(CC) $(LDFLAGS) -shared -nostdlib -o $(DESTDIR)$(LIBDIR)/$(SHARED) -Wl,-soname,$(SONAME) -Wl,--version-script=install/libbitm_c.map -Wl,--whole-archive $(ARCHIVE) -Wl,--no-whole-archive -lgcc
	chmod 644 $(DESTDIR)$(LIBDIR)/$(SHARED)
	ln -sf $(SHARED) $(DESTDIR)$(LIBDIR)/$(SONAME)
	ln -sf $(SONAME) $(DESTDIR)$(LIBDIR)/libbitm_c.so
	$(FILL) install/bitm.pc.in > $(DESTDIR)$(LIBDIR)/pkgconfig/bitm.pc
	$(FILL) install/bitm-config.cmake.in > $(DESTDIR)$(LIBDIR)/cmake/bitm/bitm-config.cmake
	$(FILL) install/bitm-config-version.cmake.in > $(DESTDIR)$(LIBDIR)/cmake/bitm/bitm-config-version.cmake
ifneq ($(PROGRAM),)
	install -D -m 755 $(PROGRAM) $(DESTDIR)$(BINDIR)/bitm
	install -D -m 644 install/bitm.1 $(DESTDIR)$(MANDIR)/bitm.1
	install -D -m 644 install/bitm.bash $(DESTDIR)$(COMPLETIONS)/bitm
else
	@echo "make install: the program bitm is left out: there is none for $(PROCESSOR)"
endif

uninstall: ## take away what make install laid there
	rm -f $(addprefix $(DESTDIR),$(LAID))
	-rmdir $(DESTDIR)$(INCLUDEDIR)/bitm $(DESTDIR)$(LIBDIR)/cmake/bitm $(DESTDIR)$(LIBDIR)/cmake $(DESTDIR)$(LIBDIR)/pkgconfig 2> /dev/null

install-python: ## the Python package, into the Python of this shell
	python3 -m pip install ./bindings/python

javascript: archive ## the modules of the JavaScript package, its tests and its tarball
	scripts/archives wasm64
	scripts/prebuilt bindings/javascript/wasm
	bindings/javascript/tests/each
	cd bindings/javascript && npm pack

format: ## lay out the sources of each language whose tool is here
	@if command -v rt > /dev/null; then for it in crates/*/; do (cd "$$it" && rt fmt) || exit; done; else echo "format: no rt, so Rattle is left"; fi
	@if cargo fmt --version > /dev/null 2>&1; then for it in $(IN_CARGO); do (cd "$$it" && cargo fmt -- $(RUST_LAYOUT)) || exit; done; else echo "format: no rustfmt, so Rust is left"; fi
	@if command -v clang-format > /dev/null; then clang-format -i $(IN_C); else echo "format: no clang-format, so C and C++ are left"; fi

lint: ## what linters say of each language whose tool is here, and of the layout
	@failed=0; \
	try() { name=$$1; tool=$$2; shift 2; if ! command -v "$$tool" > /dev/null; then echo "lint: no $$tool, so $$name is left"; \
	    elif "$$@"; then echo "lint: $$name: nothing to say"; else failed=1; fi; }; \
	rust() { for it in $(IN_CARGO); do (cd "$$it" && cargo fmt --check -- $(RUST_LAYOUT)) || return; done; }; \
	clippy() { (cd bindings/rust && DOCS_RS=1 CARGO_TARGET_DIR="$${TMPDIR:-/tmp}/vokhuliza-clippy" cargo clippy --quiet --offline --locked --all-targets --features mmap -- -D warnings); }; \
	try "Rust (layout)" rustfmt rust; try "Rust" cargo-clippy clippy; \
	try "Python" flake8 flake8 --max-line-length 160 --extend-ignore=E203,E402,E501 \
	    --per-file-ignores=docs/site/rattle.py:E302,E305,E401 $(IN_PYTHON); \
	try "shell" shellcheck shellcheck --severity=error $(IN_BASH); \
	try "versions" python3 scripts/version; \
	if command -v clang-format > /dev/null; then \
	    echo "lint: C and C++ (layout): make format would change $$(for it in $(IN_C); do clang-format "$$it" | cmp -s - "$$it" || echo "$$it"; done | wc -l) files"; fi; \
	echo "lint: the layout of Rattle is looked at by rt ci, which refuses files that rt fmt would change"; \
	exit $$failed

.PHONY: help archive archives bitm prebuilt build check test quick thorough bench docs dist dist-check install uninstall install-python javascript format lint
