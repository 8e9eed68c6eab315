# What a person calls. The gate itself is .ci/run.
PREFIX ?= /usr/local
PROGRAM := crates/btest/out/btest

.PHONY: help demo build test check profile weaken check-tools bench stress figures uncalled install uninstall package

help:
	@echo 'make demo                runs the program on an example board and shows what it prints: one to three minutes'
	@echo 'make test                proves everything, tries the edits that must fail and runs the tests: about 45 minutes the first time; what passed is kept'
	@echo 'make build               proves the program alone and leaves it at $(PROGRAM): less than 30 minutes, and nothing is left to prove after make test'
	@echo 'make install PREFIX=DIR  copies the proved program with its man page, guide, examples and tools to DIR'
	@echo 'make uninstall PREFIX=.. removes them from there'
	@echo 'make package             makes a Debian package and a tar.gz of them, in out/'
	@echo 'make check CRATE=NAME    proves one crate, and those below it if they have changed'
	@echo 'make profile CRATE=NAME  lists the functions of a crate by the seconds that their proofs take'
	@echo 'make weaken CRATE=NAME   weakens the public clauses of a crate and says which proof refuses each weaker form, after make test'
	@echo 'make check-tools         tries the programs of tools/ and the examples of the documents: about a minute'
	@echo 'make bench               prints times of the proved program on large inputs'
	@echo 'make stress              tries the proved program under hostile conditions: ten minutes. docs/RELIABILITY.md says which'
	@echo 'make figures             counts clauses, duplicates, and lines of proof'
	@echo 'make uncalled            lists the public calls that the program does not make'
	@echo
	@echo 'What the program does (man docs/btest.1, docs/GUIDE.md):'
	@sed -n 's/^| `\(btest [^`]*\)` | \(.*\) |$$/\1|\2/p' README.md | awk -F'|' '{ printf "%-51s %s\n", $$1, $$2 }'

# Runs the main job on the files of examples/ and shows what it prints, with the proved program where it is there.
demo:
	@bash scripts/demo.sh

# Leaves the proved program, and prints where it is.
build:
	@bash scripts/build.sh

# The program and what goes with it: its man page, the completion of its words, the guide, the examples and the tools.
# The folder is passed in the environment, so its name may hold blanks and signs of the shell.
install uninstall: export INSTALL_TO = $(DESTDIR)$(PREFIX)
install: build
	@bash scripts/install.sh $(PROGRAM) "$$INSTALL_TO"
	@echo "installed: $$INSTALL_TO/bin/btest, share/man/man1/btest.1.gz and share/btest"

# The same files are removed. What someone else put into share/btest stays.
uninstall:
	@bash scripts/install.sh --remove "$$INSTALL_TO"
	@echo "removed: $$INSTALL_TO/bin/btest, share/man/man1/btest.1.gz and share/btest"

# The same as packages for machines that have no Rattle kit.
package: build
	@bash scripts/package.sh $(PROGRAM)

# The gate: proofs, edits that must fail, tests and programs.
test:
	@bash scripts/test.sh

# One crate.
check:
	@bash scripts/check.sh "$$CRATE"

# Where the time of one crate goes. The crates below it are proved first, and nothing else should run meanwhile.
profile:
	@bash scripts/check.sh --profile "$$CRATE"

# Which proof needs each public clause of one crate: WITH='plan.width' tries those with this in their title.
weaken:
	@bash scripts/check.sh --weaken "$$CRATE" $(WITH)

# The programs beside btest and the examples of the documents; those of btest where the proved program is there.
check-tools:
	@bash scripts/python.sh scripts/check-tools $(addprefix --btest ,$(wildcard $(PROGRAM)))

# Figures, with no limit and no verdict.
bench: build
	@bash scripts/bench.sh $(PROGRAM)

# Hostile use, outside the gate: WITH='broken --seed 7 --runs 1000000' does one part, with other broken texts and more of them.
stress: build
	@bash scripts/python.sh scripts/stress $(PROGRAM) $(WITH)

# Figures of the sources, with no limit and no verdict.
figures:
	@bash scripts/python.sh scripts/figures.py

# The public calls that the program doesn't make, and whether a test makes them. No limit and no verdict.
uncalled:
	@bash scripts/python.sh scripts/uncalled.py
