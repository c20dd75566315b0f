# What is proved, for more places: static programs for each processor of x86-64, programs and library for aarch64, and a module of
# WebAssembly. It is compiled and linked once more, and nothing is proved once more.
PROGRAMS = tmpl tmpl-check
FOR_ARM = --target=aarch64-unknown-linux-gnu
# the first line of each recipe that needs a compiler for aarch64, or binaryen
NEEDS_ARM = command -v aarch64-linux-gnu-gcc > /dev/null || { echo "aarch64-linux-gnu-gcc is missing: install gcc-aarch64-linux-gnu \
and libc6-dev-arm64-cross" >&2; false; }
NEEDS_WASM_OPT = command -v wasm-opt > /dev/null || { echo "wasm-opt is missing: install binaryen" >&2; false; }

# the object of a program: it is compiled once more, for each processor; for the tests alone it is the one that the check of the program left,
# or where there is none, since `rt ci` kept the program from an earlier run, one that is compiled without proofs
LEFT = crates/$(subst -,_,$(@F))/out/$(subst -,_,$(@F)).o
OBJECT_FOR_TESTS = $(if $(wildcard $(LEFT)),cp $(LEFT) $@.o,python3 packaging/unproved.py --object $(@F) $@.o)
OBJECT = $(if $(FOR_TESTS),$(OBJECT_FOR_TESTS),python3 packaging/build.py $(subst -,_,$(@F)) $@.o --cpu=x86-64)

# links tmpl and tmpl-check statically, for each processor of x86-64, in packaging/out/static
static: $(addprefix $(STATIC)/,$(PROGRAMS))

# builds the two programs, statically, and the C library for Linux on aarch64, in packaging/out/aarch64
aarch64: $(addprefix $(ARM)/,$(PROGRAMS) libtmpl.a libtmpl.so)

# builds the engine as a module of WebAssembly, packaging/out/web/tmpl.wasm, and a page that renders by it, tmpl.html
web: $(WEB)/tmpl.wasm $(WEB)/tmpl.html

# packs the module of WebAssembly with its binding for JavaScript, as npm installs it
npm: $(WEB)/tmpl.wasm
	python3 packaging/make.py npm

$(STATIC)/tmpl $(ARM)/tmpl: $(PROGRAM)
$(STATIC)/tmpl-check $(ARM)/tmpl-check: $(CHECKER)

$(addprefix $(STATIC)/,$(PROGRAMS)): packaging/build.py
	@$(NEEDS_RT)
	mkdir -p $(@D)
	$(OBJECT)
	kit=$$(dirname "$$(rt doc)") && \
		$(CC) -static -s -Wl,--gc-sections -o $@ $@.o "$$kit/c/libos_c.a" "$$kit/c/liblibc_c.a"

$(ARM)/%: private CC = aarch64-linux-gnu-gcc
$(ARM)/%: private LD = aarch64-linux-gnu-ld
$(ARM)/%: private AR = aarch64-linux-gnu-ar
$(ARM)/%: private OBJCOPY = aarch64-linux-gnu-objcopy

$(addprefix $(ARM)/,$(PROGRAMS)): packaging/build.py packaging/aarch64/os.c bindings/c/heap.c
	@$(NEEDS_RT)
	@$(NEEDS_ARM)
	mkdir -p $(@D)
	python3 packaging/build.py $(subst -,_,$(@F)) $@.o $(FOR_ARM)
	$(CC) -O2 -Wall -Wextra -static -s -Wl,--gc-sections -Wl,--wrap=main -o $@ $@.o packaging/aarch64/os.c bindings/c/heap.c

$(ARM)/libtmpl_c.a: $(ENGINE) packaging/build.py
	@$(NEEDS_RT)
	@$(NEEDS_ARM)
	mkdir -p $(@D)
	python3 packaging/build.py tmpl_c $@ $(FOR_ARM)

$(ARM)/libtmpl.a: $(ARM)/libtmpl_c.a $(LIBRARY_IN_C:%=bindings/c/%.c) $(addprefix bindings/c/,keys.h tmpl.h)
	$(one_object)

$(ARM)/libtmpl.so: $(ARM)/libtmpl.a bindings/c/tmpl.map
	$(shared_object)

$(WEB)/tmpl_c.bc: $(ENGINE) packaging/build.py
	@$(NEEDS_RT)
	mkdir -p $(@D)
	python3 packaging/build.py --module tmpl_c $@

$(WEB)/tmpl.wasm: $(WEB)/tmpl_c.bc $(addprefix packaging/web/,make.py heap.c keys.c wide.c) $(addprefix bindings/c/,keyed.c keys.h tmpl.h)
	@$(NEEDS_RT)
	@$(NEEDS_WASM_OPT)
	python3 packaging/web/make.py wasm $< $@

$(WEB)/tmpl.html: $(WEB)/tmpl.wasm $(addprefix packaging/web/,make.py page.html page.css page.js worker.js) bindings/javascript/tmpl.mjs
	@$(NEEDS_RT)
	python3 packaging/web/make.py page $< $@

.PHONY: static aarch64 web npm
