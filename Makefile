# `make` prints what there is. README.md, "Commands", says the same and more.
DOCS_SRC ?= ../shared/docs/src
CASES ?= 100000
SEED ?= 1
CALL ?=
JOBS ?= 1
INDEX ?=
DATA ?=
LIMIT ?=
HASHES ?=
ROBUST_CASES ?= 20000

LIBRARY = target/staticlib/libkiban_c.a
PROGRAM = target/bin/listing
BESIDE = target/bin/beside
# What the library and the program are made of: made anew where one of these changed, and not else.
SOURCES := crates.txt $(shell find crates \( -name must-fail -o -name out \) -prune -o \( -type d -path 'crates/*/*' -o -name '*.rt' -o -name '*.antt' \) -print)

NEED = sh scripts/need
# What every comparison with the old Rust needs.
BOTH = rt cargo cc "DOCS_SRC=$(DOCS_SRC)"
AGAIN = $(MAKE) --silent --no-print-directory
CARGO = cargo build --offline --locked --manifest-path compare/Cargo.toml --target-dir target/beside

# A program that is written and then found wrong does not stay.
.DELETE_ON_ERROR:
.PHONY: help run library test wrong bindings compare-tool compare compare-files compare-hashes release bench speed stack robust vectors clean
help:
	@sed -n '/^## Commands/,/^## /{/^    [a-z]/p}' README.md

run:
	@$(NEED) rt
	@$(AGAIN) $(PROGRAM)
	@$(PROGRAM) < crates/listing/stdin

library:
	@$(NEED) rt
	@$(AGAIN) $(LIBRARY)
	@echo "$(LIBRARY) is as new as its code"

$(PROGRAM): $(SOURCES)
	@sh scripts/prove run listing

$(LIBRARY): $(SOURCES)
	@sh scripts/prove lib kiban_exports

test:
	@$(NEED) rt gzip
	@sh scripts/check-toolchain
	@sh scripts/check-quotes && sh scripts/test-check-trust
	@sh scripts/check-specs && sh scripts/test-check-specs
	@sh scripts/check-mixrule && sh scripts/test-check-mixrule
	@sh scripts/check-public && sh scripts/test-check-public
	@sh scripts/check-numbers && sh scripts/test-check-numbers
	@sh scripts/draw-crates --check
	@sh scripts/test-make
	@sh scripts/test-listing-input
	@sh scripts/gate

wrong:
	@$(NEED) rt
	@sh scripts/try-wrong

bindings:
	@$(NEED) rt cargo cc
	@$(AGAIN) $(LIBRARY)
	@sh scripts/bindings

# The tool that runs the old Rust beside this code, with overflow checks on the Rust's side.
compare-tool:
	@$(NEED) $(BOTH)
	@$(AGAIN) $(LIBRARY)
	@sh compare/oracle/make-oracle.sh "$(DOCS_SRC)" target/oracle
	@$(CARGO) --profile checked
	@mkdir -p target/bin && cp target/beside/checked/beside $(BESIDE)

# With CALL, that call alone.
compare:
	@$(NEED) $(BOTH) "CASES=$(CASES)" "SEED=$(SEED)" "JOBS=$(JOBS)"
	@$(AGAIN) compare-tool
	@$(if $(CALL),:,sh scripts/bindings)
	@$(BESIDE) compare $(SEED) $(CASES) "$(CALL)" $(JOBS)

# An index of the plant and its data, or hashes of it, on both sides.
compare-files:
	@$(NEED) $(BOTH) "INDEX=$(INDEX)" "DATA=$(DATA)" "LIMIT=$(LIMIT)"
	@$(AGAIN) compare-tool
	@$(BESIDE) index "$(INDEX)" "$(DATA)" "$(LIMIT)"

compare-hashes:
	@$(NEED) $(BOTH) "HASHES=$(HASHES)"
	@$(AGAIN) compare-tool
	@$(BESIDE) hashes "$(HASHES)"

# The same tool as it is timed: a plain release build.
release:
	@$(NEED) $(BOTH)
	@$(AGAIN) $(LIBRARY)
	@sh compare/oracle/make-oracle.sh "$(DOCS_SRC)" target/oracle
	@$(CARGO) --release

bench: release
	@target/beside/release/beside bench "$(CALL)"

# The figures of docs/SPEED.md made anew: its table, and its plot. For a machine that does nothing else.
speed: bench
	@target/beside/release/beside bench plot
	@cp target/plot.tsv docs/speed.tsv
	@sh scripts/draw-speed && sh scripts/speed-table

# The stack that each call takes, and each program.
stack: release
	@target/beside/release/beside stack
	@sh scripts/stack-programs

# The comparison, the C example and tests and the package's tests under valgrind and sanitizers.
robust:
	@$(NEED) $(BOTH) valgrind "SEED=$(SEED)" "CASES=$(ROBUST_CASES)"
	@$(AGAIN) compare-tool
	@sh scripts/robust $(SEED) $(ROBUST_CASES)

# Writes the stored vectors anew.
vectors: compare-tool
	@$(BESIDE) vectors

clean:
	rm -rf target crates/*/out
