# The commands of the repository: `make sample` shows the program on a sample file, `make test` is the gate, `make install` copies to PREFIX.
# Assumes the Rattle kit (rt) on the PATH; `make test` sees to the other tools itself.

LIBRARY = target/staticlib/libpcn.a
PROGRAM = target/bin/masks

# The crates whose functions C can call; `make library` joins their archives to one.
FOR_C = desktop interface

# Where `make install` puts the program, the library and the header. DESTDIR goes before it, for packages that are put together elsewhere.
PREFIX ?= /usr/local
INSTALLED = $(DESTDIR)$(PREFIX)

.PHONY: program sample library test bench bench-write fuzz fuzz-wrong wrong install uninstall

# How long `make fuzz` searches, and from which seed.
SECONDS = 20
SEED = 1

# Two runs of rt at the same time would write the same files.
.NOTPARALLEL:

# `rt run` proves, links and runs; on no input the program only says that this is no file.
program:
	@cd crates/masks && rt run </dev/null >/dev/null
	@install -D -m 755 crates/masks/out/masks $(PROGRAM)

sample: program
	@echo "$(PROGRAM) < examples/shift-chain.pcn"
	@$(PROGRAM) < examples/shift-chain.pcn

library:
	@for crate in $(FOR_C); do (cd crates/$$crate && rt lib) || exit 1; done
	@mkdir -p $(dir $(LIBRARY)) && rm -f $(LIBRARY)
	@{ echo create $(LIBRARY); for crate in $(FOR_C); do echo addlib crates/$$crate/out/lib$$crate.a; done; echo save; } | ar -M

test:
	@tests/setup
	@tests/gate

bench: library
	@tests/bench/run $(LIBRARY)

# The same, and puts the result into docs/BENCHMARKS.md.
bench-write: library
	@tests/bench/run --write $(LIBRARY)

fuzz: library
	@tests/fuzz/run $(SECONDS) $(SEED)

# Shows that the fuzz run finds each of many wrong models.
fuzz-wrong: library
	@tests/fuzz/wrong

# Shows that the outside tests find each of many wrong libraries.
wrong: program
	@tests/wrong/run

# A C program links with -lpcn.
install: program library
	install -d "$(INSTALLED)/bin" "$(INSTALLED)/lib" "$(INSTALLED)/include"
	install -m 755 "$(PROGRAM)" "$(INSTALLED)/bin/masks"
	install -m 644 "$(LIBRARY)" "$(INSTALLED)/lib/libpcn.a"
	install -m 644 include/pcn.h "$(INSTALLED)/include/pcn.h"

# The folders stay: they may have been there before.
uninstall:
	rm -f "$(INSTALLED)/bin/masks" "$(INSTALLED)/lib/libpcn.a" "$(INSTALLED)/include/pcn.h"
