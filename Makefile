# Builds, tests and installs grubrun and grubtrace. The proofs and the compiler are the kit's command rt.

PROGRAM := crates/grubrun/out/grubrun
TRACER := crates/grubtrace/out/grubtrace
UNPROVED := out/unproved
PREFIX ?= /usr/local
FILES ?= examples/documentation.grub
FLAGS ?=
RECORD ?= examples/records/probes/6.12-back.txt.xz
TRACE ?= examples/kernel/trace.txt
RECORD ?= examples/records/probes/6.12-back.txt.xz
WORDS ?= tasks

.PHONY: build everything runner tracer unproved run try try-trace test anew quick edits growths cases options bench record-check dist install uninstall clean

# Proves both programs with all that they stand on, and builds them. What is proved is told crate by crate.
build:
	@python3 scripts/build.py

# Programs and library, side by side.
everything:
	@python3 scripts/build.py grubrun grubtrace neddwyrol neddwyrol_table

# grubrun alone, and grubtrace alone.
runner:
	@python3 scripts/build.py grubrun

tracer:
	@python3 scripts/build.py grubtrace

# Both with nothing proved: out/unproved/grubrun and out/unproved/grubtrace. What overflows or leaves its bounds ends them.
unproved:
	@python3 scripts/unproved.py

# Plays the event files FILES, one runqueue each, and prints their reports.
run: runner
	@$(PROGRAM) $(FLAGS) $(FILES)

# The same with nothing proved, and then a verdict on the kernel's record RECORD.
try: unproved
	@$(UNPROVED)/grubrun $(FLAGS) $(FILES)
	@xz -dc $(RECORD) | $(UNPROVED)/grubtrace check -

# `grubtrace WORDS TRACE` with nothing proved.
try-trace:
	@python3 scripts/unproved.py grubtrace
	@$(UNPROVED)/grubtrace $(WORDS) $(TRACE)

# The gate: every proof that the machine has not kept, must-fail edits, all tests and the stored run, each growth of memory refused in
# turn, and the programs' cases.
test:
	bash .ci/run

# The gate with nothing kept, and all edits, as before a release.
anew:
	bash .ci/run --anew

# All must-fail edits: the prover has to refuse each.
edits: everything
	@python3 scripts/edits.py

# Each growth of memory refused in turn, in the tests that are made for it and in the program.
growths: runner
	@python3 tests/refused-growths.py --build

# All tests, and by the unproved programs all cases, records, sizes and pages that the gate tries: the whole behaviour with no proof.
quick:
	@python3 scripts/quick.py

# The built programs on the cases of tests/ and examples/: statuses, outputs, lines of faults, each option, limits, records of kernels.
cases: build
	@python3 scripts/cases.py

# Man pages and completions beside --help of the programs.
options: build
	python3 scripts/releases.py
	python3 scripts/options.py

# grubrun beside plain Rust without proofs (bench/, which wants cargo), in one run; and how long `grubtrace size` takes as jobs grow.
bench: runner tracer
	@python3 bench/compare.py
	@python3 bench/sizing.py

# Records a load of four tasks on this machine and checks the record; elsewhere it says why it cannot.
record-check: tracer
	kernel/record-check.sh

# A release that needs no kit, out/neddwyrol-VERSION-x86_64-linux.tar.gz, which is unpacked and tried.
dist: everything library library-arm64
	@bash scripts/dist.sh

# The programs, their man pages, and the completions of bash, zsh and fish, below PREFIX; DESTDIR goes in front of it.
SHARE := $(DESTDIR)$(PREFIX)/share

install: everything
	@install -D -m 755 $(PROGRAM) $(DESTDIR)$(PREFIX)/bin/grubrun
	@install -D -m 755 $(TRACER) $(DESTDIR)$(PREFIX)/bin/grubtrace
	@for it in grubrun grubtrace; do \
	    install -D -m 644 docs/$$it.1 $(SHARE)/man/man1/$$it.1 && \
	    install -D -m 644 completions/$$it.bash $(SHARE)/bash-completion/completions/$$it && \
	    install -D -m 644 completions/_$$it $(SHARE)/zsh/site-functions/_$$it && \
	    install -D -m 644 completions/$$it.fish $(SHARE)/fish/vendor_completions.d/$$it.fish || exit 1; \
	done
	@echo "installed grubrun and grubtrace below $(DESTDIR)$(PREFIX)"

uninstall:
	@for it in grubrun grubtrace; do \
	    rm -f $(DESTDIR)$(PREFIX)/bin/$$it $(SHARE)/man/man1/$$it.1 $(SHARE)/bash-completion/completions/$$it \
	        $(SHARE)/zsh/site-functions/_$$it $(SHARE)/fish/vendor_completions.d/$$it.fish || exit 1; \
	done

clean:
	@python3 scripts/build.py --clean
	rm -rf out crates/*/out bench/target

# The library for C, Rust and Python (docs/LIBRARY.md), built by both of the kit's compilers into out/library.
.PHONY: library library-arm64 library-test library-bench install-library uninstall-library

library:
	@bash bindings/test.sh --build

# The same for arm64, into out/library/aarch64.
library-arm64: library
	@bash bindings/test.sh --build-arm64

# The gate's step for it: linked and run from C, C++, Rust and Python.
library-test:
	@bash bindings/test.sh

# How long a transition takes, of other ways to make it in the same run: the shared table and the book beside locks and plain C, the book
# beside plain Rust (bindings/plain, which wants cargo), and from Python. docs/PERFORMANCE.md says how to read it.
library-bench: library
	@for it in . rattle llvm; do \
	    echo "out/library/$$it" && built=$(CURDIR)/out/library/$$it && \
	    $(CC) -std=gnu11 -O2 -I bindings/include bindings/speed/*.c $$built/libneddwyrol_table.a $$built/libneddwyrol.a -pthread -o $$built/speed && \
	    $$built/speed kinds && $$built/speed threads && \
	    NEDDWYROL_LIB=$$built CARGO_TARGET_DIR=$(CURDIR)/out/library/cargo \
	        cargo run -q --offline --release --manifest-path bindings/plain/Cargo.toml --bin speed || exit 1; \
	done
	@NEDDWYROL_SO=out/library/libneddwyrol.so.1 python3 bindings/python/speed.py

# Libraries, headers, pkg-config files, man page, examples, the Rust crates and the Python module below PREFIX, without the programs.
install-library: library
	@bash bindings/install.sh out/library $(PREFIX) $(DESTDIR)$(PREFIX)
	@echo "installed libneddwyrol below $(DESTDIR)$(PREFIX)"

uninstall-library:
	@bash bindings/install.sh --remove $(DESTDIR)$(PREFIX)

install: install-library

uninstall: uninstall-library
