# make run    proves and builds the listing program, and lists an image: the test card unless IMAGE names another
# make card   proves and builds the figures program, and prints the card of line starts
# make lib    proves the library and puts the archive into target/lib and the header into target/include
# make check  the daily loop: proves what has changed, then runs all tests but the long ones
# make test   the gate: proves everything from nothing, tries the must-fail edits, runs all tests
# make bench  measures the library beside the independent models, in one run, and prints the page docs/BENCHMARKS.md
IMAGE ?= crates/testcard/stdout
LIB = $(MAKE) --no-print-directory lib

.PHONY: run card lib check test bench
run:
	@(cd crates/listing && rt run) < "$(IMAGE)"

card:
	@cd crates/figures && rt run | sed -n 's/^card //p'

lib:
	@cd crates/tropfenpfad && rt lib
	@install -D -m 644 -t target/lib crates/tropfenpfad/out/libtropfenpfad.a
	@install -D -m 644 -t target/include include/tropfenpfad.h
	@echo 'lib: target/lib/libtropfenpfad.a and target/include/tropfenpfad.h'

check:
	@rt all check
	@tests/listing
	@$(LIB)
	@cd host && cargo test --quiet --release --offline --workspace -- --skip long::

test:
	@tests/all

bench:
	@$(LIB) >&2
	@cd host && cargo run --quiet --release --offline --bin bench
