# `make run` shows the product at work, `make test` passes all its tests. Both need only the Rattle toolchain (`rt`) and Python 3.
.PHONY: run build example serve containers test check runs on-demand

# The worked example: a PUT and a GET of one object, from standard input to standard output.
run:
	@tools/run-example examples/put-and-get.http

# The program, compiled before any proof: build/sw. It has checks in it, and is hundreds of times slower than the proved one, crates/sw/out/sw, which
# `rt run` in crates/sw and the gate leave. What is here runs the proved one where it is newer than the sources, else this one, compiled first where
# it isn't newer than them.
build:
	@tools/program --unproved

# A longer one: writes of all methods at two devices, and the trail of the steps that they made.
example:
	@tools/run-example examples/writes-and-trail.http

# A PUT and a GET over TCP, and a container with its row: starts the node, asks it as a client does, looks at all that comes back, kills it and starts it again.
serve:
	@tools/serve-run

# The worked cases of containers once more, over TCP and with databases on the disk.
containers:
	@tools/container-cases

# The merge gate: proves everything from nothing where no earlier run did, and runs every test and program.
test:
	@bash .ci/run

# The quick checks of the tree alone.
check:
	@tools/check-tree

# The stored runs of the program alone: all that it writes, and its status.
runs:
	@tools/stored-runs

# The wrong bodies that the gate leaves out.
on-demand:
	@tools/must-fail-on-demand
