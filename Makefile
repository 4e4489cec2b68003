# run    proves and builds the program, and plays scripts/key-chain.txt: the keys of a log-on
# test   the gate: rt ci on every crate, then the comparison with the second program
# bench  the speed of the proved SHA-256 beside plain C, in one run
.PHONY: run test bench

run:
	@tools/build detzorb
	@target/bin/detzorb scripts/key-chain.txt

test:
	@tools/test

bench:
	@tools/bench
