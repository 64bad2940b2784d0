# The two commands of the README, and the benchmark. `rt` is the Rattle toolchain's command.
.PHONY: run test bench

SAMPLE ?= samples/valley.day

# proves and builds the program first, then reads the sample day
run:
	cd crates/clear && rt run -- $(abspath $(SAMPLE))

# the gate: runs the program on the samples, then `rt ci`, which proves each crate that it has not passed here and runs all tests
test:
	.ci/run

bench:
	cd crates/bench && rt run
