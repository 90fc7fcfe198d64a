# The commands of this repository. `make report` proves the search and shows it at work; `make rules` proves the definitions with their worked examples; `make test` runs every test.

.PHONY: rules report test tidy oracle mends alike library bindings differences longer benchmark

# `rt run` proves the program and what it stands on, and runs it; what it says of the proofs goes to standard error.
report:
	@cd crates/report && rt run

rules:
	cd crates/rules && rt check

# What a script can see of the house rules, but for the layout of the files, which `rt ci` asks for (`rt fmt` in a crate's folder).
tidy:
	@tools/tidy

# The Rust original over the stand-in: its own tests, the vectors made again byte for byte, the mended run against the unmended one.
oracle:
	@tools/oracle

# With a mend taken out of rules and code alike, laws of the promise fail in the rules themselves, and its opposite is proved; with each edit of the rules that has a law in mends/edits, a theorem of theirs is proved to be false.
mends:
	@tools/mends

# And the search is proved to be that of the rules, both without the mend. It is no part of the gate, since it takes minutes.
alike:
	@tools/mends alike

# The library for C and Rust: target/lib/libbelutharin.a.
library:
	@tools/library

# The library and its tests: C, Rust, a differential run of some thousand cases, and longer runs beside shorter ones.
bindings:
	@tools/bindings

# The library against both oracles, on COUNT cases from SEED.
SEED = 1
COUNT = 100000
differences: library
	@tools/compare differences $(SEED) $(COUNT)

# Longer runs of the library beside its shorter ones, on COUNT pairs from SEED.
longer: COUNT = 50000
longer: library
	@tools/compare longer $(SEED) $(COUNT)

# The library beside the unmended oracle, written to docs/BENCHMARK.md.
benchmark: library
	@tools/benchmark

# First `rt ci`, on the checkout as it is, then tidy, oracle, mends and bindings. The last line is the verdict of `rt ci`.
test:
	@tools/gate
