# Builds, tries, tests, measures and installs the program. It needs Rattle's command `rt`.

PREFIX ?= /usr/local
PROGRAM ?= out/inrc2pb
BOUND ?= out/inrc2pb-bound
SHARE = $(DESTDIR)$(PREFIX)/share

# build.py uses all processors, and rt lets one command at a time into a crate.
.NOTPARALLEL:

.PHONY: all build try example tour solvers check test browser edits programs bench fuzz dist deb install uninstall clean

# The programs that `make` builds, each with its crate.
CRATES = inrc2pb=inrc2pb inrc2pb-bound=inrc2pb_bound
ROWS = out/inrc2pb-rows.so

all: build $(ROWS)

# Proves the crates below the programs, one for each processor at a time; build.py says in which order.
build:
	./build.py $(CRATES)

# The pricing of rows for the searches, which NumPy does without it. An own COMPILER takes the place of the kit's clang, or of cc.
COMPILER ?= $(firstword $(wildcard $(dir $(realpath $(shell command -v rt)))../toolchain/bin/clang) cc)
$(ROWS): python/inrc2pb/rows/cheapest_rows.c
	mkdir -p $(@D)
	"$(COMPILER)" -O3 $(if $(filter x86_64,$(shell uname -m)),-march=x86-64-v2) -shared -fPIC -s -o $@ $<

# Compiles without a proof and runs the example, in about a minute.
try:
	examples/try.sh

example: build
	out/inrc2pb encode --sce examples/n005w4/ward.txt --his examples/n005w4/history-0.txt \
	    --week examples/n005w4/week-0.txt

# A week to a solver and back, each command shown before it runs.
tour: build
	examples/tour.sh

# Installs cbc from Debian, as root, plans the weeks of docs/search.md, and writes its table: takes about half an hour.
solvers: all
	$(if $(filter 0,$(shell id -u)),,sudo )apt-get install -y coinor-cbc
	python3 bench/solvers.py

# Runs what can notice the changes since the last commit that passed the gate, or since the commit SINCE. Proves nothing.
check: $(ROWS)
	tests/kit/check.py $(SINCE)

test:
	.ci/run

# The work of a planner in a period on the local page, in a headless Chromium, by mouse and by keyboard, on a screen and on a telephone: takes some
# minutes. Needs Debian's packages chromium, chromium-driver and python3-selenium; the gate takes a short way only.
browser: build
	/usr/bin/python3 -m pytest -q -s python/tests/plans/browser_ways.py python/tests/plans/test_browser.py

# Tries all edits of must-fail/, in rounds and one by one, and writes the record of what refused them: takes an hour or more.
edits: build
	tests/edits/main.py --both
	tests/edits/main.py write

# Builds the programs for the scripts of tests/, without the gate: the program by LLVM and by Rattle's own compiler, and the
# programs that look into the libraries.
programs: all
	cd crates/inrc2pb && rt run --backend rattle -- --version && mv out/inrc2pb out/inrc2pb.by-rattle
	cp out/inrc2pb crates/inrc2pb/out/inrc2pb
	cd crates/inrc2pb_bound && rt run --backend rattle -- --version && mv out/inrc2pb_bound out/inrc2pb_bound.by-rattle
	cp out/inrc2pb-bound crates/inrc2pb_bound/out/inrc2pb_bound
	cd crates/call_report && rt run -- data/scenario.txt data/history.txt data/week.txt > /dev/null
	./build.py inrc2pb-fits=who_fits
	cd crates/run_tests && rt test
	cd crates/call_tests && rt test

# Seconds, MB/s and memory on made-up weeks: bench/README.md says more.
bench: build
	python3 bench/run.py

# Weeks and rosters at random, and changed files and answers, for some seconds; tests/random/fuzz.py says more. SEED tries the
# same cases again.
SECONDS ?= 60
fuzz: build
	python3 tests/random/fuzz.py --seconds $(SECONDS) $(if $(SEED),--seed $(SEED))

# An archive for any Linux on x86-64-v2, and a package for Debian and Ubuntu: out/inrc2pb-VERSION-x86_64-linux.tar.gz and
# out/inrc2pb_VERSION_amd64.deb. Both contain the files of `install`, and PROVED: the commit, and the gate's result.
dist: all
	package/archive.sh out

deb: all
	package/deb.sh out

# The folders of the installed parts. completions/write.py writes the completions for bash, zsh and fish.
BIN = $(DESTDIR)$(PREFIX)/bin
PAGES = $(SHARE)/doc/inrc2pb
LIBRARY = $(DESTDIR)$(PREFIX)/lib/inrc2pb
ZSH = $(SHARE)/zsh/site-functions
COMMANDS = $(wildcard python/inrc2pb-*)
MODULES = $(wildcard python/inrc2pb/*.py python/inrc2pb/*/*.py python/inrc2pb/*/*/*.py) python/inrc2pb/py.typed python/pyproject.toml
TOP_PAGES = README.md CHANGELOG.md CONTRIBUTING.md
COMPLETED = inrc2pb inrc2pb-bound
COMPLETIONS = "$(SHARE)/bash-completion/completions" "$(ZSH)" "$(SHARE)/fish/vendor_completions.d"

# Installs the built programs, and builds nothing, so it can run as another user. Sources are in the clone only: an installed page
# names their paths, without links.
install:
	@test -x "$(PROGRAM)" || { echo "There is no $(PROGRAM) yet: 'make' proves and builds it."; exit 1; }
	mkdir -p "$(BIN)" "$(SHARE)/man/man1" "$(PAGES)/docs" "$(PAGES)/bench" $(COMPLETIONS)
	install -m 755 "$(PROGRAM)" "$(BIN)/inrc2pb"
	test ! -x "$(BOUND)" || install -m 755 "$(BOUND)" "$(BIN)/inrc2pb-bound"
	test ! -f $(ROWS) || install -D -m 644 $(ROWS) "$(LIBRARY)/$(notdir $(ROWS))"
	for command in $(notdir $(COMMANDS)); do install -m 755 python/launcher.py "$(BIN)/$$command" || exit; done
	for module in $(MODULES:python/%=%); do install -D -m 644 "python/$$module" "$(SHARE)/inrc2pb/$$module" || exit; done
	install -m 644 man/*.1 "$(SHARE)/man/man1"
	for name in $(COMPLETED); do \
	    install -m 644 "completions/$$name.bash" "$(SHARE)/bash-completion/completions/$$name" || exit; \
	    install -m 644 "completions/_$$name" "$(ZSH)" || exit; \
	done
	for name in $(COMPLETED); do install -m 644 "completions/$$name.fish" "$(SHARE)/fish/vendor_completions.d" || exit; done
	install -m 644 completions/_inrc2pb-commands "$(ZSH)"
	for command in $(notdir $(COMMANDS)); do \
	    install -m 644 completions/inrc2pb-commands.bash "$(SHARE)/bash-completion/completions/$$command" || exit; \
	    install -m 644 completions/inrc2pb-commands.fish "$(SHARE)/fish/vendor_completions.d/$$command.fish" || exit; \
	done
	install -m 644 $(TOP_PAGES) "$(PAGES)"
	install -m 644 docs/*.md docs/*.png docs/*.svg "$(PAGES)/docs"
	sed -E -i 's|\[[^]]*\]\(\.\./(crates/[^)]*)\)|`\1`|g' "$(PAGES)"/docs/*.md
	install -m 644 bench/README.md bench/*.svg "$(PAGES)/bench"
	cp -R examples "$(PAGES)"
	find "$(PAGES)/examples" \( -name __pycache__ -o -name '*.sh' \) -prune -exec rm -r {} +
	chmod -R u=rwX,go=rX "$(PAGES)/examples"

# Removes the files of `install`, with the same PREFIX, and what Python made of the library; then its own folders, if they are empty.
uninstall:
	rm -f "$(BIN)/inrc2pb" "$(BIN)/inrc2pb-bound" "$(LIBRARY)/$(notdir $(ROWS))" \
	    $(patsubst man/%,"$(SHARE)/man/man1/%",$(wildcard man/*.1)) \
	    $(foreach name,$(COMPLETED) $(notdir $(COMMANDS)),"$(SHARE)/bash-completion/completions/$(name)" \
	    "$(SHARE)/fish/vendor_completions.d/$(name).fish") \
	    $(foreach name,$(COMPLETED) inrc2pb-commands,"$(ZSH)/_$(name)")
	rm -f $(patsubst python/%,"$(BIN)/%",$(COMMANDS))
	for page in $(TOP_PAGES) docs/*.md docs/*.png docs/*.svg bench/README.md bench/*.svg; do rm -f "$(PAGES)/$$page"; done
	find examples -type f ! -name '*.sh' -exec rm -f "$(PAGES)/{}" \;
	rm -f $(patsubst python/%,"$(SHARE)/inrc2pb/%",$(MODULES))
	test ! -d "$(SHARE)/inrc2pb" || find "$(SHARE)/inrc2pb" -name __pycache__ -prune -exec rm -r {} +
	for folder in "$(PAGES)" "$(SHARE)/inrc2pb" "$(LIBRARY)"; do test ! -d "$$folder" || find "$$folder" -type d -empty -delete; done

clean:
	rm -rf out crates/*/out
