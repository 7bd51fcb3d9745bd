# The commands of README.md.
.PHONY: test run library compare mutants libcap bench turns kernel root
SHELL := /bin/bash
.SHELLFLAGS := -o pipefail -euc

# How many plans, how many sheets and attributes, how many slot plans, and the names and status texts of how many seeds `make compare` runs; and what `make kernel`
# (docs/KERNEL.md) and `make libcap` (docs/LIBCAP.md) are told besides.
N = 1000000
OPTIONS =

# The program that runs PLAN: slot plans have one of their own.
PROGRAM = $(if $(findstring slots/,$(PLAN)),urrezkalu_slots,urrezkalu)

CARGO_RUN := cargo run --quiet --offline --release --manifest-path host/Cargo.toml

# The gate: the layout, every proof, every must-fail edit, every program's output; then the tests that are not Rattle.
# rt passes must-fail edits that cannot be applied, and only counts them as bad: here they fail. rt's own verdict, `N passed, M failed`, is held back until
# all have passed, and is the last line.
test:
	@log=$$(mktemp); trap 'rm -f "$$log"' EXIT; \
	rt ci 2>&1 | tee "$$log" | sed -u '$$d' || { tail -n 1 "$$log"; exit 1; }; \
	if grep -Eq '^rt: ok.*, [0-9]+ bad' "$$log"; then echo 'make test: FAILED: must-fail edits that cannot be applied or read'; exit 1; fi; \
	host/tests/run; \
	tail -n 1 "$$log"

# Proves and builds the program, which takes minutes where nothing is proved yet and seconds after that, and runs it on a plan or a slot plan.
run:
	@test -r "$(PLAN)" || { echo 'make run PLAN=examples/NAME.plan: runs a plan and prints its report' >&2; exit 2; }
	@echo 'make run: proving and building the program first' >&2
	@exec <"$(PLAN)"; cd crates/$(PROGRAM); rt run

# Proves the library and writes target/staticlib/libcapi.a, which host/binding and C programs link.
library:
	@echo 'make library: proving and building the library' >&2
	@host/library >&2

# The library and the second program on N plans, on N sheets and attributes, on 10 N texts in names and 2 N times three sets, on 5 N status texts, and on N slot plans.
compare: library
	@$(CARGO_RUN) -p compare -- --count $(N)

# Small wrong edits of the second program, each of which the comparison has to catch.
mutants: library
	@host/tests/mutants

# Texts in names read and written by the system's libcap, laid beside the library's.
libcap: library
	@$(CARGO_RUN) -p libcap -- $(OPTIONS)

# The library's speed beside the second program's, on plans, slot plans, texts in names and status texts, and in names beside libcap's.
bench: library
	@$(CARGO_RUN) -p bench

# The library of another commit and this one's, timed in turns on equal inputs (docs/BENCHMARKS.md).
turns:
	@test -n "$(BEFORE)" || { echo 'make turns BEFORE=COMMIT: times the library of that commit and this one in turns' >&2; exit 2; }
	@host/bench/turns "$(BEFORE)"

# Plans performed with real system calls, slot plans by families that really fork, and what the kernel did laid beside the library's prediction.
kernel: root library
	@cc -std=c11 -static -O1 -Wall -Wextra -Werror host/kernel/harness/*.c -o target/kernel-harness
	@$(CARGO_RUN) -p kernel -- target/kernel-harness examples $(OPTIONS)

root:
	@test "$$(id -u)" -eq 0 || { echo 'make kernel: needs root: it gives threads other IDs and capabilities' >&2; exit 2; }
