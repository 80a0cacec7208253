# What can be done here. `make` alone lists it.

# Where `make install` puts everything: DESTDIR stands before PREFIX, as for packages. Configurations and units go by
# SYSCONFDIR too: /etc where PREFIX is /usr or /usr/local, else PREFIX/etc.
PREFIX ?= /usr/local
DESTDIR ?=
# A crate of crates.txt, for the targets that work on one: make check CRATE=pulse_log
CRATE ?=
export PREFIX DESTDIR CRATE

# Whether build/tsbank stands and is no older than any source.
FRESH = test -x build/tsbank && test -x build/tsheard && test -z "$$(find crates.txt crates -name out -prune -o -type f \
	\( -name '*.rt' -o -name '*.antt' -o -name crates.txt \) -newer build/tsbank -print)"

# Goes to the crate that was named.
IN_CRATE = test -n "$$CRATE" && test -d "crates/$$CRATE" || { echo "which crate? make $@ CRATE=pulse_log" >&2; exit 2; }; \
	cd "crates/$$CRATE"

.PHONY: help run build picture install uninstall dist deb deb-test test check try quick edits plant fmt bench clean toolchain contrib-test contrib-daemons contrib-clocks

help: ## lists these targets
	@sed -n 's/^\([a-z-]*\):.*## \(.*\)/make \1|\2/p' Makefile | awk -F'|' '{ printf "%-21s %s\n", $$1, $$2 }'

run: ## decodes the sample over the century: by build/tsbank, or in about a minute by an unproved run where that is missing or old
	@if $(FRESH); then \
		cd sample && ../build/tsbank decode dcf77.toml; \
	else \
		echo "make run: no proved program of these sources stands (make build makes it); this quick run proves nothing" >&2; \
		install -d build && cd crates/tsbank && \
		rt try --seconds 600 --data dcf77.toml=../../sample/dcf77.toml --data attic.log=../../sample/attic.log \
			--data cellar.log=../../sample/cellar.log -- decode dcf77.toml \
			2> ../../build/quick-run.txt || { cat ../../build/quick-run.txt >&2; exit 1; }; \
	fi

build: ## proves the programs' crates and leaves build/tsbank and build/tsheard (an hour at first)
	cd crates/tsbank && rt run -- encode wwvb 2024-02-29T12:34Z > /dev/null
	cd crates/tsheard && rt run --data k.toml=data/k.toml --data a.log=data/a.log -- k.toml --seconds 120 > /dev/null
	install -d build
	install -m 755 crates/tsbank/out/tsbank build/tsbank
	install -m 755 crates/tsheard/out/tsheard build/tsheard

picture: ## draws what was heard of the sample, as docs/sample.svg
	@$(FRESH) || $(MAKE) build
	cd sample && { ../build/tsbank decode dcf77.toml && ../build/tsheard dcf77.toml; } | ../contrib/picture --config dcf77.toml > ../docs/sample.svg

install: ## puts programs, manual pages, contrib's scripts, documents, completion and units under PREFIX (/usr/local)
	@$(FRESH) || $(MAKE) build
	@packaging/install install

uninstall: ## removes what make install put there
	@packaging/install uninstall

dist: ## makes build/dist/tsbank-VERSION-x86_64-linux.tar.xz: what make install installs, with checksums
	@$(FRESH) || $(MAKE) build
	@packaging/make-dist

deb: ## makes build/dist/tsbank_VERSION_amd64.deb
	@$(FRESH) || $(MAKE) build
	@packaging/make-deb

deb-test: deb ## installs and purges that package in a new Debian 12 and 13, as root: some minutes
	@packaging/try-deb bookworm trixie

test: toolchain ## the gate: proves all, tries the edits, runs the tests and the program
	.ci/run

toolchain: ## compares README's line of the toolchain with the one at hand
	@grep -qF "$$(rt version)" README.md || { echo "README.md names another toolchain than this: $$(rt version)" >&2; exit 1; }

check: ## proves one crate: CRATE=NAME
	@$(IN_CRATE) && rt check

try: ## runs one crate's tests unproved, in seconds: CRATE=NAME
	@$(IN_CRATE) && rt try --test

quick: ## runs the crates' tests unproved, side by side
	@tools/quick

edits: ## tries the wrong bodies of one crate, each of which must be refused: CRATE=NAME
	@$(IN_CRATE) && cd ../.. && rt must-fail "$$CRATE"

plant: ## lists wrong bodies that one crate's contracts let through: CRATE=NAME
	@$(IN_CRATE) && rt plant

fmt: ## lays out the files of every crate
	@for crate in crates/*/; do (cd "$$crate" && rt fmt) || exit 1; done

bench: ## measures the program: speed, memory, and how often its answers are wrong
	@$(FRESH) || $(MAKE) build
	cd crates/search_bench && rt run -- compare > /dev/null
	cd crates/board_bench && rt run -- compare > /dev/null
	bench/decode
	bench/search
	bench/board
	bench/reading
	bench/irig-frames
	bench/certificates
	bench/certificate-faults
	bench/failures
	bench/terminal
	bench/wrong-answers

contrib-test: ## tests the scripts of contrib/ with build/tsbank: loggers in, texts read and drawn, fitted costs, the guard, what daemons are told
	contrib/test-texts
	contrib/test-fit
	contrib/test
	contrib/test-live

contrib-daemons: ## runs contrib/live beside chronyd, ntpd and gpsd, where they are installed: some minutes
	contrib/daemons

contrib-clocks: ## runs contrib/live on a hundred simulated machines whose clocks are set, slewed and worse: an hour
	bench/clocks cases
	bench/clocks hours

clean: ## removes what was built and what checks kept (some gigabytes)
	rm -rf crates/*/out build
