PROGRAM = crates/changecap/out/changecap

# The program without proofs, with run-time checks in their place.
UNPROVED = crates/changecap/out/unproved/changecap

# How many random cases `make conformance` makes of each kind, and how often `make bench` runs each load.
CASES = 500
ROUNDS = 3

# How many random runs `make test-followers` makes, and for how many seconds the broker is away in it.
RUNS = 200
AWAY = 60

# The code that the program may be made of: that of every crate but those that test it, and the two for C.
SOURCES = $(filter-out crates/cap_test_% crates/cap_connection/% crates/cap_c/%, $(wildcard crates/*/src))

# Where `make lib` leaves the library for C, and where `make install` puts it and the program.
OUT = bindings/out
PREFIX = /usr/local
DESTDIR =

.PHONY: run check build test docs format clean conformance bench lib shared python install uninstall test-bindings \
        test-recipes test-followers bench-followers test-pictures package test-package

# The replies to the first example, by the optimised program where `make build` or `make test` left one. Else by the
# program without proofs, which is built here unless `make check` left it.
run:
	@if [ -x $(PROGRAM) ]; then \
	    if [ -n "$$(find $(SOURCES) -newer $(PROGRAM) -print -quit)" ]; then \
	        echo 'make run: $(PROGRAM) is older than the sources; `make build` makes it anew' >&2; \
	    fi; \
	    $(PROGRAM) run < examples/first.workload; \
	else \
	    .ci/check --program $(UNPROVED) && $(UNPROVED) run < examples/first.workload; \
	fi

# Every test and every example in minutes, and no proof.
check:
	@.ci/check $(UNPROVED)

# Proves every crate that the program stands on, makes the optimised program and runs it once.
build:
	@cd crates/changecap && rt run -- run < stdin
	@touch -c $(PROGRAM)
	@echo 'The program is $(PROGRAM).'

# Every proof from nothing, every must-fail edit, every test, the library for C, and then the examples through the
# optimised program, and what the pages say. What each crate cost stands before the last line, which counts them all.
test:
	@log=$$(mktemp) && trap 'rm -f "$$log"' EXIT && \
	.ci/gate 2>&1 | tee "$$log" && proofs=$$(tail -n 1 "$$log") && \
	examples/check $(PROGRAM) | tee "$$log" && examples=$$(tail -n 1 "$$log") && \
	docs/check $(PROGRAM) | tee "$$log" && pages=$$(tail -n 1 "$$log") && \
	printf '%s\n%s\n%s\n' "$$proofs" "$$examples" "$$pages" | awk ' \
	    /^[0-9]+ passed, [0-9]+ failed$$/ { parts++; passed += $$1; failed += $$3 } \
	    END { if (parts != 3) failed++; print passed + 0 " passed, " failed + 0 " failed"; exit failed != 0 }'

# What the pages say: names, links, limits and examples, these through a program where there is one; and that errors
# planted in the pages are found.
docs:
	@docs/check $(firstword $(wildcard $(PROGRAM) $(UNPROVED)))
	@docs/check --planted $(firstword $(wildcard $(PROGRAM) $(UNPROVED)))

# Lays out every crate's sources as `make test` wants them: it proves no crate that is not laid out so.
format:
	@for crate in crates/*/; do (cd $$crate && rt fmt) || exit 1; done

clean:
	rm -rf crates/*/out $(OUT)

# The program beside SQLite's session extension, which the gate does without.
conformance:
	@conformance/run $(PROGRAM) --cases $(CASES)

# How long the program, and the library for C that `make lib` leaves, take beside SQLite: a table of ratios.
bench:
	@bench/run $(PROGRAM) $(OUT) $(ROUNDS)

# The library for C, as an archive and as a shared object: that of `make test`, where the sources are the same. Else it is
# built over what is proved, and cap_c itself is proved here.
lib:
	@bindings/library $(OUT)

# The shared object alone, of the archive that is there.
shared:
	@bindings/shared $(OUT)

# The package for Python, with the archive that is there in it.
python:
	@bindings/package $(OUT)

# The program, the library, the manual pages, completions, the crate and the package for Python where others find them.
install:
	@bindings/install $(PROGRAM) $(OUT) "$(DESTDIR)" "$(PREFIX)" $(LIBDIR) $(PYTHONDIR)

uninstall:
	@bindings/install --remove "$(DESTDIR)" "$(PREFIX)" $(LIBDIR) $(PYTHONDIR)

# The same as a package of Debian.
package:
	@bindings/debian $(PROGRAM) $(OUT)

# That package, on a system of its own.
test-package:
	@bindings/test_package $(OUT) $(SYSTEM)

# The recipes from C, Rust and Python, with databases of SQLite. `make test-bindings` runs them too.
test-recipes:
	@recipes/test $(OUT)

# The library's calls from C, Rust and Python.
test-bindings:
	@bindings/test $(OUT)

# The drawings of runs, in headless Chromium.
test-pictures:
	@pictures/test

# The followers over Redis, with random runs in which everything is killed; then their figures.
test-followers:
	@followers/test $(OUT) $(RUNS) $(AWAY)

bench-followers:
	@followers/bench $(OUT)
