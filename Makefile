# `make` proves the program and builds it; docs/CONTRIBUTING.md says how long each target takes.
PREFIX ?= /usr/local
export PREFIX DESTDIR CRATE

PROGRAM = crates/tmpl/out/tmpl
CHECKER = crates/tmpl_check/out/tmpl_check
# the engine as a C library: what is proved, and what is linked of it for others; with FOR_TESTS=1, for the tests alone, of what is compiled without proofs
ENGINE = $(if $(FOR_TESTS),out/tests/lib/libtmpl_c.a,crates/tmpl_c/out/libtmpl_c.a)
LIBRARIES = $(if $(FOR_TESTS),out/tests/lib,bindings/out)
STATIC_LIBRARY = $(LIBRARIES)/libtmpl.a
SHARED_LIBRARY = $(LIBRARIES)/libtmpl.so
# its number grows where a host that was compiled before would call it wrongly, as where a struct of the header grows
SONAME = libtmpl.so.2
# what proofs and programs are made of, with the folders, so that a file which is gone counts too
SOURCES = crates.txt HANDLES $(shell find $(wildcard crates/*/src crates/*/specs crates/*/proofs))
OBJCOPY ?= objcopy
QUOTES = $(addprefix examples/quotes/,quotes.tmpl data.tmpl texts.tmpl)
# where packaging/ports.mk puts what is built for other places
STATIC = $(if $(FOR_TESTS),out/tests/packages,packaging/out)/static
ARM = packaging/out/aarch64
WEB = packaging/out/web
# what is copied, but for whole folders
COPIED = bin/tmpl bin/tmpl-check share/man/man1/tmpl.1 share/man/man1/tmpl-check.1 share/man/man7/tmpl-language.7 share/bash-completion/completions/tmpl \
	share/zsh/site-functions/_tmpl share/fish/vendor_completions.d/tmpl.fish share/bash-completion/completions/tmpl-check \
	share/zsh/site-functions/_tmpl-check share/fish/vendor_completions.d/tmpl-check.fish include/tmpl.h include/tmpl.hpp lib/libtmpl.a \
	lib/libtmpl.so lib/$(SONAME) lib/pkgconfig/tmpl.pc
# whether what is for aarch64 is built
HAS_ARM = $(MAKE) --no-print-directory -s -q aarch64
# the first line of each recipe that needs the toolchain
NEEDS_RT = command -v rt > /dev/null || { echo "rt is missing: it is the command of the toolchain of Rattle, with which the \
program is proved and built. Put it on the PATH, or install a package that was made where it is." >&2; false; }

# proves the programs tmpl and tmpl-check and the crates that they use, over what earlier runs kept in out/, and builds them
build: $(PROGRAM) $(CHECKER)

# builds tmpl without proofs, renders examples/hello, and keeps it as out/unproved/bin/tmpl
demo:
	@$(NEEDS_RT)
	@python3 packaging/demo.py tmpl

# builds tmpl-check without proofs, checks a template, and keeps it as out/unproved/bin/tmpl-check
demo-check:
	@$(NEEDS_RT)
	@python3 packaging/demo.py tmpl-check

# tests the programs, built without proofs where no build is up to date, in some minutes; tests/run runs single tests
test:
	@$(NEEDS_RT)
	tests/run

# the gate: every proof, then all tests over the programs that it left, as each of the two compilers built them
prove gate:
	@$(NEEDS_RT)
	tests/run --all

# proves the engine as a C library and builds it: bindings/out/libtmpl.a and libtmpl.so
lib: $(STATIC_LIBRARY) $(SHARED_LIBRARY)

# the tests of the bindings for Go and Rust, where Go and Cargo are installed
test-bindings:
	python3 -m tests.check.library --bindings

# proves one crate, CRATE=NAME, over what earlier runs kept in out/
check:
	@$(NEEDS_RT)
	@test -n "$$CRATE" || { echo "name a crate: make check CRATE=tmpl_lex" >&2; false; }
	cd "crates/$$CRATE" && rt check

# tries the wrong bodies in crates/NAME/edits, each of which the prover must refuse: of every crate, or of CRATE=NAME
edits:
	@$(NEEDS_RT)
	python3 -m tests.gate.edits $${CRATE:+"$$CRATE"}

# times the program, the C library and what is built for other places beside others, and draws the plots of docs/SPEED.md
bench: $(PROGRAM) $(CHECKER) lib
	python3 packaging/unproved.py tmpl_probe
	python3 -m tests.bench.bench
	python3 -m tests.bench.bench_servers
	python3 -m tests.bench.bench_ports
	python3 -m tests.bench.strangers
	python3 -m tests.bench.plots

# fuzzes the C library by coverage, 10,000,000 inputs, and holds what was kept against meaning.py; it needs clang with libFuzzer
fuzz: $(PROGRAM) $(ENGINE)
	python3 -m tests.fuzz.fuzz

# renders random templates by the program and by Go's own text/template; it needs Go
compare: $(PROGRAM)
	python3 -m tests.go.compare

# copies the programs, man pages, completions, templates for quoting, documents and examples to PREFIX, /usr/local if it is not set
install: $(PROGRAM) $(CHECKER) install-documents
	install -D -m 755 $(PROGRAM) "$$DESTDIR$$PREFIX/bin/tmpl"
	install -D -m 755 $(CHECKER) "$$DESTDIR$$PREFIX/bin/tmpl-check"
	! command -v strip > /dev/null || strip "$$DESTDIR$$PREFIX/bin/tmpl" "$$DESTDIR$$PREFIX/bin/tmpl-check"
	! command -v $(OBJCOPY) > /dev/null || { note=$$(mktemp) && python3 packaging/pages.py --build > "$$note" && \
		for program in tmpl tmpl-check; do \
			$(OBJCOPY) --remove-section .tmpl.build --add-section ".tmpl.build=$$note" "$$DESTDIR$$PREFIX/bin/$$program" || exit 1; \
		done && rm "$$note"; }
	install -D -m 644 completions/tmpl.bash "$$DESTDIR$$PREFIX/share/bash-completion/completions/tmpl"
	install -D -m 644 completions/tmpl-check.bash "$$DESTDIR$$PREFIX/share/bash-completion/completions/tmpl-check"
	install -D -m 644 -t "$$DESTDIR$$PREFIX/share/zsh/site-functions" completions/_tmpl completions/_tmpl-check
	install -D -m 644 -t "$$DESTDIR$$PREFIX/share/fish/vendor_completions.d" completions/tmpl.fish completions/tmpl-check.fish
	install -D -m 644 -t "$$DESTDIR$$PREFIX/share/tmpl/quotes" $(QUOTES)

# copies the documents, the man pages and the examples alone, with links to what is installed, and the folder that PREFIX names
install-documents:
	python3 packaging/pages.py "$$DESTDIR$$PREFIX" "$${SHOWN_PREFIX:-$$PREFIX}"

# copies the C library, its header and what pkg-config reads to PREFIX
install-lib: lib
	install -D -m 644 -t "$$DESTDIR$$PREFIX/include" bindings/c/tmpl.h bindings/c/tmpl.hpp
	install -D -m 644 -t "$$DESTDIR$$PREFIX/lib" $(STATIC_LIBRARY)
	install -D -m 755 $(SHARED_LIBRARY) "$$DESTDIR$$PREFIX/lib/$(SONAME)"
	ln -sf $(SONAME) "$$DESTDIR$$PREFIX/lib/libtmpl.so"
	install -d "$$DESTDIR$$PREFIX/lib/pkgconfig"
	python3 packaging/pages.py --pkg-config < bindings/c/tmpl.pc.in > "$$DESTDIR$$PREFIX/lib/pkgconfig/tmpl.pc"

# removes what `make install` and `make install-lib` copied, and the folders that are empty then
uninstall:
	cd "$$DESTDIR$$PREFIX" && rm -f $(COPIED) && rm -rf share/tmpl share/doc/tmpl && for file in $(COPIED) share/doc/tmpl; do \
		folder=$${file#*/}; case $$folder in */*) (cd "$${file%%/*}" && rmdir -p "$${folder%/*}") 2> /dev/null || true;; esac; done
	cd "$$DESTDIR$$PREFIX" && case "$$PWD" in /usr | /usr/local) ;; *) rmdir bin include lib share 2> /dev/null || true;; esac

# packs what `make install` copies, and what `make install-lib` copies where the library is built, as a tar; the same of the ports
dist: $(PROGRAM) $(CHECKER) static
	@$(NEEDS_RT)
	python3 packaging/make.py tar
	python3 packaging/make.py tar static
	! $(HAS_ARM) || python3 packaging/make.py tar aarch64

# packs the static programs, and those for aarch64 where they are built, as Debian packages; installs each into a root of its own and runs it
deb: static
	@$(NEEDS_RT)
	for port in static $$(! $(HAS_ARM) || echo aarch64); do \
		package=$$(python3 packaging/make.py deb $$port) && echo "$$package" && packaging/try.sh "$$package" || exit 1; done

# packs the binding for Python with the C library as a wheel; then installs it into a folder of its own, runs it and removes it
wheel: lib
	package=$$(python3 packaging/make.py wheel) && echo "$$package" && packaging/try_wheel.sh "$$package"

# lists the targets
help:
	@awk '/^# / { said = substr($$0, 3) } /^[a-z0-9-]+:/ && said { split($$1, name, ":"); \
		printf "make %-13s %s\n", name[1], said } !/^#/ { said = "" }' $(MAKEFILE_LIST)

$(PROGRAM): $(SOURCES)
	@$(NEEDS_RT)
	@echo "Proving the program: docs/CONTRIBUTING.md says how long that takes from a fresh clone; seconds where little changed .." >&2
	cd crates/tmpl && rt run -- --help > /dev/null
	@touch $@

$(CHECKER): $(SOURCES)
	@$(NEEDS_RT)
	cd crates/tmpl_check && rt run -- --help > /dev/null
	@touch $@

crates/tmpl_c/out/libtmpl_c.a: $(SOURCES)
	@$(NEEDS_RT)
	@echo "Proving the library: docs/CONTRIBUTING.md says how long that takes from a fresh clone; seconds where little changed .." >&2
	cd crates/tmpl_c && rt lib >&2
	@touch $@

out/tests/lib/libtmpl_c.a: $(SOURCES)
	@$(NEEDS_RT)
	python3 packaging/unproved.py libtmpl_c.a
	@touch $@

# what of the library is C: the heap, the keys of its hashes, and the line that says which build it is
LIBRARY_IN_C = heap keyed keys version

# one object of what is proved and of that, in which no name but those of the header can be seen, as an archive
define one_object
build="$$(python3 packaging/pages.py --build)" && for part in $(LIBRARY_IN_C); do \
	$(CC) -O2 -fPIC -Wall -Wextra -DTMPL_BUILD="\"$$build\"" -c bindings/c/$$part.c -o $(@D)/$$part.o || exit 1; done
$(LD) -r -o $(@D)/tmpl.o --whole-archive $< --no-whole-archive $(LIBRARY_IN_C:%=$(@D)/%.o)
$(OBJCOPY) --wildcard --keep-global-symbol='tmpl_*' $(@D)/tmpl.o
rm -f $@ && $(AR) rcs $@ $(@D)/tmpl.o
endef

define shared_object
$(CC) -shared -o $@ -Wl,--whole-archive $< -Wl,--no-whole-archive -Wl,-soname,$(SONAME) \
	-Wl,--version-script=bindings/c/tmpl.map -Wl,-z,defs -Wl,-z,now $(NEEDED_PROCESSOR)
endef

# the mark by which the system's loader refuses older processors than those for which the toolchain compiles
$(SHARED_LIBRARY): private NEEDED_PROCESSOR = -Wl,-z,x86-64-v2

$(STATIC_LIBRARY): $(ENGINE) $(LIBRARY_IN_C:%=bindings/c/%.c) $(addprefix bindings/c/,keys.h tmpl.h)
	mkdir -p $(@D)
	$(one_object)

$(SHARED_LIBRARY): $(STATIC_LIBRARY) bindings/c/tmpl.map
	$(shared_object)
	rm -f $(@D)/$(SONAME)
	cp $@ $(@D)/$(SONAME)  # `rt ci` takes no links in a checkout

include packaging/ports.mk

.PHONY: build demo demo-check test prove gate lib test-bindings install-lib check edits bench fuzz compare install install-documents uninstall dist deb wheel help
