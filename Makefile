# Two commands: `make run` builds deskcheck and runs it on an example, `make test` runs all tests.
# `make audit` prints what is promised, what it rests on and what is assumed, with file and line.
# Three long ones: `make differential` compares with the Rust, `make bench` measures against it, `make fuzz` fuzzes the C functions.
# A short one: `make columns` measures pass rows by columns: their times, and the size of compressed files.
.PHONY: run test audit differential bench fuzz columns

run:
	@bash tools/run.sh

test:
	@bash tools/test.sh

audit:
	@bash tools/audit.sh

differential:
	@bash tools/differential.sh

bench:
	@bash tools/bench.sh

fuzz:
	@bash tools/fuzz.sh

columns:
	@bash tools/columns.sh
