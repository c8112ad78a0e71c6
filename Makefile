# The targets of `make`. They run the commands of the Rattle toolchain, `rt`, and the scripts of this repository.
#
#   make            proves the program and all crates that it depends on, and builds the program
#   make try        runs the job JOB without proving anything, and keeps no file. A job is the text of a map, followed
#                   by commands. By default, JOB is an example, and `make try` prints what its commands change in the
#                   map. `make try JOB=my.job ARGS=--in-turn` runs another job, with other options. In ARGS, `map` is
#                   the name of a file with the map of JOB
#   make test       runs the tests of all crates, the stored runs and the tests of the whole program, without proving
#                   anything. It leaves out four tests of the gate (see `make check`): limits.py, refused_memory.py,
#                   wrong.py and wrong_test.py of tests/
#   make check      runs the gate, that is, the checks that every change must pass. The gate proves everything for
#                   which no proof is kept on this machine, runs the tests, and tries the wrong bodies (deliberate
#                   errors that the prover must refuse)
#   make install    installs the program, the recipe (crushedit-recipe), their manual pages and the completions for
#                   shells below PREFIX, which is /usr/local by default
#   make uninstall  removes the files that `make install` has installed
#   make dist       writes an archive of the program, the recipe and the pages to out/, and also a package for Debian
#                   if dpkg-deb is installed
#   make manual     writes the manual page man/crushedit.1 from the help. `make check` compares the page with the help
#   make tables     writes a table into CONTRIBUTING.md: the processor seconds that the prover took for each crate in
#                   the last `make check`
#   make recipe     installs the program and the recipe below out/tried, and then tests the installed recipe, and the
#                   examples of the pages with the installed program
#   make trials     tests the program with sessions of a shell, random jobs, little memory and stack, and streams that
#                   fail. This takes some minutes
#   make monitor    compares the program, the recipe, --to and --as-ceph with a monitor of Ceph 18 (the server process
#                   that keeps the map of a cluster). This needs root, and downloads Ceph to out/monitor
#   make clean      removes out/, the folder out/ of each crate, and each folder __pycache__

PREFIX = /usr/local
DESTDIR =
JOB = examples/maps/class-3.job
ARGS = --in-turn --since map
PROGRAM = crates/crushedit/out/crushedit
# The files from which the program is proved and built.
SOURCES = crates.txt $(shell find crates \( -name out -o -name '*_tests' \) -prune -o \( -name '*.rt' -o -name '*.antt' \) -print)

.PHONY: all try test check install uninstall dist manual tables recipe trials monitor clean

all: $(PROGRAM)

$(PROGRAM): $(SOURCES)
	cd crates/crushedit && rt run < stdin | cmp - stdout
	touch -c $@

try:
	@map=$$(mktemp) && sed '/^%/,$$d' $(JOB) > $$map && cd crates/crushedit && \
	  { rt try --data map=$$map $(if $(ARGS),-- $(ARGS)) < $(abspath $(JOB)); status=$$?; rm $$map; exit $$status; }

test:
	python3 -B tests/all_tests.py

check:
	.ci/run

install: $(PROGRAM)
	install -d $(DESTDIR)$(PREFIX)/bin $(DESTDIR)$(PREFIX)/share/man/man1
	install -m 755 $(PROGRAM) $(DESTDIR)$(PREFIX)/bin/crushedit
	install -m 755 bin/crushedit-recipe $(DESTDIR)$(PREFIX)/bin/crushedit-recipe
	install -m 644 man/crushedit.1 man/crushedit-recipe.1 $(DESTDIR)$(PREFIX)/share/man/man1
	install -D -m 644 completions/crushedit.bash $(DESTDIR)$(PREFIX)/share/bash-completion/completions/crushedit
	install -D -m 644 completions/crushedit.zsh $(DESTDIR)$(PREFIX)/share/zsh/site-functions/_crushedit
	install -D -m 644 completions/crushedit.fish $(DESTDIR)$(PREFIX)/share/fish/vendor_completions.d/crushedit.fish

uninstall:
	rm -f $(addprefix $(DESTDIR)$(PREFIX)/bin/, crushedit crushedit-recipe)
	rm -f $(addprefix $(DESTDIR)$(PREFIX)/share/man/man1/, crushedit.1 crushedit-recipe.1)
	rm -f $(DESTDIR)$(PREFIX)/share/bash-completion/completions/crushedit
	rm -f $(DESTDIR)$(PREFIX)/share/zsh/site-functions/_crushedit
	rm -f $(DESTDIR)$(PREFIX)/share/fish/vendor_completions.d/crushedit.fish

dist: $(PROGRAM)
	packaging/dist.sh $(PROGRAM)

manual:
	python3 tools/manual.py

tables:
	test ! -e out/costs.log || python3 tools/costs.py out/costs.log

recipe: $(PROGRAM)
	$(MAKE) install DESTDIR=$(CURDIR)/out/tried PREFIX=/usr
	python3 -B tests/recipe_test.py out/tried/usr/bin/crushedit out/tried/usr/bin/crushedit-recipe
	python3 tests/pages_test.py out/tried/usr/bin/crushedit

trials: $(PROGRAM)
	python3 tests/runs.py $(PROGRAM)
	python3 tests/against_reference.py $(PROGRAM) 1000
	python3 tests/plans.py $(PROGRAM) 1000
	python3 tests/documents.py $(PROGRAM) 1000
	python3 tests/parts.py $(PROGRAM) 1000
	python3 tests/conflicts.py $(PROGRAM) 1000
	python3 tests/at_once.py $(PROGRAM) 200
	python3 tests/refused_memory.py $(PROGRAM)
	python3 tests/limits.py $(PROGRAM) --fits 1024
	python3 tests/colliding.py $(PROGRAM)
	python3 tests/streams.py $(PROGRAM)
	python3 tests/outfile.py $(PROGRAM)

monitor: $(PROGRAM)
	tests/monitor.sh install out/monitor
	tests/monitor.sh start out/monitor
	python3 -B tests/recipe_by_monitor.py $(PROGRAM) out/monitor
	tests/monitor.sh start out/monitor
	tests/monitor.sh osds out/monitor
	python3 -B tests/recipe_by_monitor.py $(PROGRAM) out/monitor
	tests/monitor.sh start out/monitor
	{ python3 tests/plans_by_monitor.py $(PROGRAM) out/monitor 100 1 && python3 tests/against_monitor.py $(PROGRAM) out/monitor 2000 1 && \
	  python3 tests/renames_by_monitor.py $(PROGRAM) out/monitor 100 1 && \
	  python3 bench/exact_weights.py out/monitor --monitor 400 --program $(PROGRAM); }; \
	  status=$$?; tests/monitor.sh stop out/monitor; exit $$status

clean:
	rm -rf crates/*/out out
	find . -name __pycache__ -prune -exec rm -rf {} +
