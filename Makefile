# The repository's two commands, the benchmark, and the layout of its files. `make test` is the gate.
.PHONY: test run bench fmt

# Proves every crate, tries the must-fail edits, runs the programs and the tests outside Rattle. Last line: N passed, 0 failed.
test:
	@tools/test

# The demonstration: an order file enciphered, opened from the middle, a state stored and taken up, a damaged state refused, the file's rows read.
run:
	@echo 'proving and building, which takes some minutes the first time' >&2
	@tools/build-rust --example demonstration
	@target/cargo/release/examples/demonstration

# The proved libraries beside the ciphers and the reader in C of bench/: instructions and times, as tables, and the bars that are set for them.
bench:
	@tools/bench

# Lays the files of crates/ out as the gate wants them.
fmt:
	@for crate in $$(sed -n 's/^\([a-z][a-z0-9_]*\).*/\1/p' crates.txt); do (cd "crates/$$crate" && rt fmt) || exit 1; done
