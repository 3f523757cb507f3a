# The commands of the repository. Each but `flow`, `install` and `uninstall` needs `rt` of the Rattle kit on the path.

# Where `make install` puts the program. What is in DESTDIR stands before it, for packages.
PREFIX = /usr/local
DESTDIR =
# The Verilog files that `make flow` places; without any, the two designs of examples/from_verilog. The name of one file may have blanks.
V =
export V

.PHONY: test hostile edits plants place bench program flow install uninstall package

# Makes every proof that the machine has not kept, and runs the must-fail edits, every test and program, the tests of the built program, and
# for at most 15 minutes planted bugs of crates that changed. The last line of the output is `N passed, M failed`.
test:
	@tests/all

# Runs the program on hostile machines, and where it has to refuse, in the long forms of tests/hostile and tests/refusals, whose short forms are
# in `make test`. It says what it does as it goes. Some of it wants root, for another user and small file systems, and some strace, cc and
# python3; the many odd texts want REFERENCE=FOLDER, the folder of another placer (tests/README.md). What cannot be tried is said.
hostile: program
	@status=0; tests/hostile/run --long crates/vplace/out/vplace || status=1; \
	tests/refusals/run --long crates/vplace/out/vplace || status=1; \
	tests/refusals/growths --long || status=1; exit $$status

# Tries all planted bugs: those of must-fail, which `make test` tries too, and those of further-edits. The prover must reject each. The last
# line counts them. What was tried is kept in out/edits, so a second call goes on where the first ended.
edits:
	@tests/further_edits

# Builds programs with planted bugs that no contract sees, a few at a time, and runs the tests that must find them.
plants:
	@tests/plants

# Places a shipped circuit with its pads at given sites, prints the report, and says where the placement is. If the proved program is not
# built yet, a checked build does it, in two minutes.
place:
	@tests/tools/place

# Measures moves per second with one worker, on five designs; with BASELINE=PROGRAM also those of another placer, in the same run. Then with
# 1, 2 and 4 workers and four batches, on two designs, and how long a checkpoint text is read.
bench: program
	@bench/place.sh
	@bench/turns.sh
	@bench/point.sh

# Proves and then compiles the program, at crates/vplace/out/vplace: about 25 minutes on four processors, with a line for each crate when it
# is done. If nothing changed, nothing is made again.
program:
	@tests/tools/program

# Places designs from their Verilog: examples/from_verilog/README.md has the other variables.
flow:
	@V="$$V" OUT=examples/from_verilog/out PATH="$(CURDIR)/crates/vplace/out:$$PATH" sh examples/from_verilog/flow.sh

# Installs the program that `make program` built, a manual page, and completions for bash, zsh and fish.
install:
	@packaging/install.sh crates/vplace/out/vplace '$(DESTDIR)$(PREFIX)'

# Packs the program that `make program` built, as a Debian package and as an archive, with their checksums, in out/packages.
package:
	@packaging/package.sh crates/vplace/out/vplace out/packages

uninstall:
	@packaging/install.sh --remove '$(DESTDIR)$(PREFIX)'
