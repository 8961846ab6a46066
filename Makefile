# `make help` says what there is.
PREFIX ?= /usr/local
TUP = crates/tup/out/tup
SH = crates/tup_sh/out/tup_sh
SHIM = crates/tup_shim/out/tup_shim
SHARE = $(DESTDIR)$(PREFIX)/share
MAN = $(SHARE)/man/man1/tup.1
OUTSIDE = crates/tup_outside_rows/out/tup_outside_rows
ROWS = $(foreach storey,language core board top,crates/tup_$(storey)_rows/out/tup_$(storey)_rows)
# How many crates are proved at once; each takes up to 4 GB of memory.
JOBS ?= $(shell nproc)
TEXTS := crates.txt HANDLES $(shell find crates -name out -prune -o '(' -name '*.rt' -o -name '*.antt' ')' -print)
VERSION = $(shell sed -n 's/^const VERSION: &str = "\(.*\)";/\1/p' crates/tup/src/main.rt)

.PHONY: help look build runners demo check above promises definitions reach books refusals rows test edits seats try examples shell lot containers stamps real killed power model figures figures-crew fmt times picture beside dist tag install uninstall clean

help: ## prints this
	@awk -F':[^#]*## ' '/^[a-z-]+:[^#]*## / {printf "make %-15s %s\n", $$1, $$2}' Makefile

# The interpreter that looks for faults besides isn't waited for.
look: ## shows the program in some minutes, in a build without proofs, which is left nowhere
	cd crates/tup && rt try --steps 1 -- demo
	@echo 'That was `tup demo`: an update of a small project in memory. This build is unproved: `make build` proves it.'

build: $(TUP) ## proves and builds the program, and has it print its version; JOBS=2 proves two crates at once
	$(TUP) --version

runners: $(SH) $(SHIM)

# A program that the gate built in this checkout, of the texts as they are, is taken. Else it is proved and built, with all
# below it.
$(TUP): $(TEXTS)
	cd $(patsubst %/out/,%,$(dir $@)) && rt all check --jobs $(JOBS) && rt run -- --version

# Once they are built, each prints its usage: without words it ends with 2, which tells nothing.
$(SH) $(SHIM): $(TEXTS)
	cd $(patsubst %/out/,%,$(dir $@)) && rt all check --jobs $(JOBS)
	cd $(patsubst %/out/,%,$(dir $@)) && rt run | grep '^usage'

$(ROWS) $(OUTSIDE): $(TEXTS)
	cd $(patsubst %/out/,%,$(dir $@)) && rt all check --jobs $(JOBS) && rt run

check: ## proves one crate and what is below it: CRATE=tup_stamp
	cd crates/$(CRATE) && rt all check --jobs $(JOBS)

above: ## lists the crates that a change of one reaches: CRATE=tup_stamp
	@sh tools/above.sh $(CRATE)

promises: ## prints what each public function promises, crate by crate; CRATE=tup_stamp of that crate alone
	@python3 -B tools/promises.py $(CRATE)

definitions: ## prints the definitions of a name, of a crate, or the calls with a clause of that name: OF=IsKept
	@python3 -B tools/promises.py definitions '$(OF)'

reach: ## lists the definitions that the contract of tup comes down to; OF=history, OF=large
	@python3 -B tools/reach.py $(OF)

books: ## compares the documents with the code: clauses, definitions, limits, files, links
	@python3 -B tools/books.py

refusals: ## lists the refusals of each public call with the clauses that say when they come; SHOW=open those without
	@python3 -B tools/refusals.py $(SHOW)

rows: ## tries one file of rows: FILE=crates/tup_store_rows/data/kept.rows
	@sh tools/rows.sh $(FILE)

# The program in C at its end wants tup_sh, and says so where there is no C compiler or no strace.
demo: build runners ## builds the programs and shows them on copies of examples/tree, examples/hello and examples/c
	sh examples/demo.sh $(TUP) $(SH)

test: ## the gate: every proof, the edits that must be refused, every test, the program as a user meets it
	.ci/run

edits: ## the edits that must be refused and that the gate leaves out; CRATES=tup_stamp those of that crate
	sh tools/edits.sh $(CRATES)

# Workers in threads of their own, at a board in memory; in some minutes.
seats: ## tries workers in threads of their own, at a board and in a scan, unproved (some minutes)
	sh tests/seats/seats.sh

try: build ## the last part of the gate: the program over small projects, full disks, damaged stores
	sh tests/gate/program.sh $(TUP)
	sh tests/gate/skip.sh $(TUP)
	sh tests/gate/user.sh $(TUP)

examples: build ## compares what README, USING and examples/language show at a terminal with what the program prints
	python3 -B tools/examples.py $(TUP)

shell: build runners ## shell commands under tup_sh, what they saw, examples/c, several at a time, clangd and distcc (wants strace)
	sh tests/shell/shell.sh $(SH)
	sh tests/shell/saw.sh $(TUP) $(SH)
	sh tests/shell/c-example.sh $(TUP) $(SH)
	sh tests/shell/tools.sh $(TUP) $(SH)
	sh tests/shell/parallel.sh $(TUP) $(SH)

containers: build runners ## shell commands where a container lets them; DEBIAN=FOLDER in a root of its own
	sh tests/shell/containers.sh $(TUP) $(SH) $(DEBIAN)

# The sources stay in REAL, so that a second call fetches nothing.
REAL ?= $(or $(TMPDIR),/tmp)/tup-real
real: build runners ## builds and edits Lua, zlib, brotli and ninja, fetched from Debian, beside ninja (wants a network)
	sh tests/real/real.sh $(TUP) $(SH) $(REAL)

# SEED=2 draws other histories, STOPS=10000 more of them.
SEED ?= 1
STOPS ?= 200
killed: build ## fails and kills each system call of an update in turn, stops updates by lot and on a full disk (fifteen minutes)
	sh tests/faults/edge.sh $(TUP)
	sh tests/faults/calls.sh $(TUP)
	sh tests/faults/compact.sh $(TUP)
	sh tests/faults/together.sh $(TUP)
	sh tests/faults/orphan.sh $(TUP)
	sh tests/faults/no-memory.sh $(TUP)
	python3 -B tests/faults/stops.py killed $(TUP) $(SEED) $(STOPS)
	python3 -B tests/faults/stops.py full $(TUP) $(SEED) $(STOPS)
	sh tests/faults/killed.sh $(TUP)

# CUTS=2000 plays more cuts of power.
CUTS ?= 200
power: build ## cuts the power by lot in updates that sync once, and does to these what `make killed` does; CUTS=2000 (half an hour)
	sh tests/faults/once.sh $(TUP)
	python3 -B tests/faults/power.py planted $(TUP) $(SEED)
	python3 -B tests/faults/power.py cut $(TUP) $(SEED) $(CUTS)
	python3 -B tests/faults/power.py again $(TUP) $(SEED) $(CUTS)
	python3 -B tests/faults/power.py user $(TUP) $(SEED) $(CUTS)
	ONCE=1 python3 -B tests/faults/stops.py killed $(TUP) $(SEED) $(STOPS)
	ONCE=1 python3 -B tests/faults/stops.py full $(TUP) $(SEED) $(STOPS)
	ONCE=1 sh tests/faults/killed.sh $(TUP)

# SEED=2 draws others, EDITS=1000 so many edits.
EDITS ?= 300
lot: build runners ## projects of shell commands drawn by lot, beside the plain shell; SEED=2 draws others, EDITS=3000 more (some minutes)
	python3 -B tests/shell/lot.py $(TUP) $(SH) $(SEED) $(EDITS)

stamps: build $(OUTSIDE) ## which files are read, and edits by lot of files whose digests are kept
	sh tests/faults/stamps.sh $(TUP)
	python3 -B tests/faults/stamps.py $(OUTSIDE) $(SEED)

# SEED=2 draws others, COUNT=10 ten times as many.
model: build runners $(ROWS) ## compares the programs with a second reading of the language, in Python
	python3 -B tests/model/compare.py rows crates language=crates/tup_language_rows/out/tup_language_rows \
	    commands=crates/tup_core_rows/out/tup_core_rows board=crates/tup_board_rows/out/tup_board_rows \
	    top=crates/tup_top_rows/out/tup_top_rows
	python3 -B tests/model/compare.py folders $(TUP)
	python3 -B tests/model/compare.py folders $(TUP) --proc $(abspath $(SHIM))
	python3 -B tests/model/compare.py killed $(TUP)

# In microseconds of a processor, over a store in memory.
figures: ## what opening a graph, noting a scan and ending a run cost, up to 65,536 rules
	sh bench/figures.sh

figures-crew: build runners ## what -j N gains over real files, beside ninja (some minutes; wants strace and ninja)
	sh bench/figures-crew.sh $(TUP) $(SH)

fmt: ## lays out every crate
	for crate in crates/*; do (cd $$crate && rt fmt) || exit 1; done

times: ## measures what each crate costs the gate from nothing (an hour and more)
	sh tools/times.sh

picture: ## draws docs/update.svg, the way of one update
	python3 -B tools/picture.py

# OTHER is Debian's other tup, in a column of its own.
OTHER ?=
beside: build runners ## what tup does beside make and ninja, a row of README's table each; OTHER=/usr/bin/tup with the other tup
	sh bench/beside.sh $(TUP) $(SH) $(OTHER)

dist: build runners ## packs the programs: an archive and a Debian package, in dist/
	sh packaging/dist.sh $(TUP) $(SH) $(SHIM)

tag: books ## gives this commit the tag of its version, once make books finds nothing wrong
	git diff --quiet HEAD
	git tag -a v$(VERSION) -m 'tup $(VERSION)'

install: build runners ## builds the programs and puts them, the manual and completions below PREFIX (/usr/local)
	install -D -m 755 $(TUP) $(DESTDIR)$(PREFIX)/bin/tup
	install -m 755 $(SH) $(SHIM) $(DESTDIR)$(PREFIX)/bin
	mkdir -p $(dir $(MAN))
	sed 's/@VERSION@/$(VERSION)/' docs/tup.1 > $(MAN)
	install -D -m 644 editors/bash/tup $(SHARE)/bash-completion/completions/tup
	install -D -m 644 editors/zsh/_tup $(SHARE)/zsh/site-functions/_tup

uninstall: ## takes them away
	rm -f $(DESTDIR)$(PREFIX)/bin/tup $(DESTDIR)$(PREFIX)/bin/tup_sh $(DESTDIR)$(PREFIX)/bin/tup_shim $(MAN) \
	    $(SHARE)/bash-completion/completions/tup $(SHARE)/zsh/site-functions/_tup

clean: ## removes what was built and what checks kept in this checkout
	rm -rf crates/*/out dist
