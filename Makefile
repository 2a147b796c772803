# What a user and a change call. `rt` is the toolchain's command; it proves before it builds.
.PHONY: run test spf plain try cases bench

# The program, proved and built, on the first example.
run:
	cd crates/spf_prog && rt run -- run < ../../examples/increment.spf

# All tests: the merge gate (proofs, must-fail edits, unit tests, stored runs), and then the program's own cases on the
# program that the gate built.
test:
	.ci/run

# The proved program as bin/spf.
spf:
	cd crates/spf_prog && rt run -- run < ../../examples/increment.spf > /dev/null
	mkdir -p bin
	cp crates/spf_prog/out/spf_prog bin/spf

# The plain interpreter of the source loops as bin/spf_plain, for comparison.
plain:
	cd crates/spf_plain && rt run < stdin > /dev/null
	mkdir -p bin
	cp crates/spf_plain/out/spf_plain bin/spf_plain

# A build without proofs on the first example, for a first look.
try:
	cd crates/spf_prog && rt try -- run < ../../examples/increment.spf

# The program on each folder of cases/.
cases: spf
	cases/run bin/spf

# How fast the proved program reads, beside `wc -w`, how fast it walks and runs, what each part of a run costs, beside the plain
# source loops, what layers, orders and tiles cost, and how fast it calculates.
bench: spf plain
	bench/reading bin/spf
	bench/running bin/spf
	bench/executing bin/spf bin/spf_plain
	bench/ordering bin/spf
	bench/tiling bin/spf
	bench/calculating bin/spf
