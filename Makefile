# make run    proves, builds and runs the demonstration of the loader
# make walk   the same of the program that prints a run, small step by small step
# make test   everything the gate does: every proof, edit, program and test, then what must not build, and the stored
#             answers against the rules; a proof that passed on this machine is kept while its files and those below stay

.PHONY: run walk test

run: program = evening
walk: program = walk
run walk:
	@mkdir -p target
	@cd crates/$(program) && rt run 2> ../../target/run.log || { cat ../../target/run.log; exit 1; }

test:
	@tests/gate
