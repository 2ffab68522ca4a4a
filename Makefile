# Shows, proves, builds, tests and installs the program. `rt` is the toolchain's command.
PREFIX ?= /usr/local
SOURCES := crates.txt $(shell find crates -name out -prune -o -type f -print)

.PHONY: all quick tools demo lint test browser soak install uninstall package clean
.NOTPARALLEL:

all: bin/typetool

# The program at work before any proof: the screen of a recording at a moment in seconds, of one of today with
# PROFILE=xterm. `rt try` compiles it, runs it once and keeps nothing.
quick: export SCRIPT ?= examples/tour.script
quick: export TIMING ?= examples/tour.timing
quick: export AT ?= 10
quick: export PROFILE ?= vt100
quick:
	@echo "UNPROVED: this compiles the program and proves nothing; 'make' proves it, and builds bin/typetool."
	@echo "Compiling takes about two minutes, in silence; then comes the screen of $$SCRIPT at $$AT seconds ($$PROFILE)."
	@script=$$(realpath -- "$$SCRIPT") && timing=$$(realpath -- "$$TIMING") && cd crates/typetool && \
		rt try --data "script=$$script" --data "timing=$$timing" -- screen --profile "$$PROFILE" --at "$$AT" script timing

# The Debian packages that tests and linters use. It never fails: a test that lacks its tool is skipped, and says so.
tools:
	tests/tools.sh

# `rt run` proves each crate that has changed before it builds the program.
bin/typetool: $(SOURCES)
	cd crates/typetool && rt run -- --help >/dev/null
	mkdir -p bin
	cp crates/typetool/out/typetool bin/typetool

# The shipped recordings as pages, which any browser opens.
demo: bin/typetool
	bin/typetool page examples/tour.script examples/tour.timing >bin/tour.html
	bin/typetool page --profile xterm examples/today/greet.script examples/today/greet.timing >bin/greet.html
	@echo "file://$(CURDIR)/bin/tour.html"
	@echo "file://$(CURDIR)/bin/greet.html"

# A look over shell, Python, layout, the pages and the edits, in seconds and without the program.
LINTS := tests/edits_apply.py tests/reading.py tests/pages.py 'assets/make_page.py --check' \
	'assets/make_outlines.py --check' tests/manual.py \
	tests/plain_import.py tests/plain_transcript.py tests/runs.sh tests/lint.sh

lint:
	tests/run.py $(LINTS)

# The scripts run the program that the gate has proved and built. Seeks grow the 6th to the 13th time, and their tests of
# refused growths begin up to six growths late: with the 12th and the 13th refused each of them is refused in turn.
test:
	tests/run.py $(LINTS) -- tests/gate.sh -- \
		'tests/recordings.sh bin/typetool' \
		'tests/program.sh bin/typetool' \
		'tests/readme.py bin/typetool' \
		tests/installed.sh \
		tests/package.sh \
		'tests/limits.py bin/typetool' \
		'tests/memory.py bin/typetool' \
		'tests/damage.py bin/typetool 500' \
		'tests/mend_fuzz.py bin/typetool 8000' \
		'tests/import_fuzz.py bin/typetool 3000' \
		'tests/players.py bin/typetool' \
		'tests/whole.py bin/typetool 100' \
		'tests/make_recordings.py bin/typetool' \
		'tests/fuzz.py bin/typetool 2000' \
		'tests/today_fuzz.py bin/typetool 1000' \
		'tests/transcripts.py bin/typetool 1000' \
		'tests/state_text.py bin/typetool 1000' \
		'tests/state_drawn.py bin/typetool 100 20' \
		'tests/cuts.py bin/typetool 100' \
		'tests/today_recordings.py bin/typetool' \
		'tests/linear.py bin/typetool' \
		'tests/pictures.py bin/typetool' \
		'tests/page_data.py bin/typetool' \
		'tests/cast.py bin/typetool' \
		'tests/archive.py bin/typetool 500' \
		'tests/refused.py 1 12 13' -- \
		$(BROWSER)

# Pages in Chromium, one script after the other, since they look at the clock.
BROWSER := 'tests/browser.py bin/typetool' -- 'tests/browser_look.py bin/typetool' -- 'tests/browser_today.py bin/typetool'

browser: bin/typetool
	tests/run.py $(BROWSER)

# The long forms: more limits on memory, 20,000 damaged pairs and random recordings, 3,000 that are cut, 1,000 kills of
# each job that writes a pair, an archive of 2,000, every growth refused in turn, and more wrong bodies.
soak: bin/typetool
	tests/run.py \
		'tests/memory.py bin/typetool 16' \
		'tests/damage.py bin/typetool 20000' \
		'tests/mend_fuzz.py bin/typetool 20000' \
		'tests/import_fuzz.py bin/typetool 20000' \
		'tests/whole.py bin/typetool 1000' \
		'tests/fuzz.py bin/typetool 20000' \
		'tests/today_fuzz.py bin/typetool 10000' \
		'tests/transcripts.py bin/typetool 3000' \
		'tests/state_text.py bin/typetool 3000' \
		'tests/state_drawn.py bin/typetool 3000 500' \
		'tests/cuts.py bin/typetool 3000' \
		'tests/archive.py bin/typetool' -- \
		tests/refused.py -- \
		tests/edits.sh

# The program, its manual page, and what shells complete of its command line.
man1 := $(DESTDIR)$(PREFIX)/share/man/man1
bash := $(DESTDIR)$(PREFIX)/share/bash-completion/completions
zsh := $(DESTDIR)$(PREFIX)/share/zsh/site-functions
fish := $(DESTDIR)$(PREFIX)/share/fish/vendor_completions.d

install: bin/typetool
	install -d $(DESTDIR)$(PREFIX)/bin $(man1) $(bash) $(zsh) $(fish)
	install -m 755 bin/typetool $(DESTDIR)$(PREFIX)/bin/typetool
	sed "s/typetool @VERSION@/$$(bin/typetool --version)/" man/typetool.1 | \
		install -m 644 /dev/stdin $(man1)/typetool.1
	install -m 644 completions/typetool.bash $(bash)/typetool
	install -m 644 completions/_typetool $(zsh)/_typetool
	install -m 644 completions/typetool.fish $(fish)/typetool.fish

uninstall:
	rm -f $(DESTDIR)$(PREFIX)/bin/typetool $(man1)/typetool.1 $(bash)/typetool $(zsh)/_typetool $(fish)/typetool.fish

# bin/typetool_VERSION_amd64.deb, and a .tar.gz with the same tree.
package: bin/typetool
	package/make.sh bin

clean:
	rm -rf bin crates/*/out
