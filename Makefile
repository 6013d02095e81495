SHELL := /bin/bash
.SHELLFLAGS := -o pipefail -c
.PHONY: demo try build programs web lib transfer install install-web install-lib browser memory test bench soak

program := crates/cfdp_replay/out/cfdp_replay
server := crates/cfdp_server/out/cfdp_server
put := crates/cfdp_put/out/cfdp_put
ctl := crates/cfdp_ctl/out/cfdp_ctl
hostile := crates/hostile_runs/out/hostile_runs
web := crates/cfdp_web/out/cfdp_web
benches := crates/benches/out/benches
PREFIX ?= /usr/local

# a first look: a file is received whose segments were lost and asked for again, and a file crosses loopback between both
# programs, which are compiled meanwhile; nothing is proved
demo:
	@log=$$(mktemp); examples/demo-transfer.sh 2000000 > $$log 2>&1 & transfer=$$!; \
	    status=0; examples/demo.sh examples/lost-segments.script || status=$$?; echo; \
	    tail -n +1 -f --pid=$$transfer $$log; wait $$transfer || status=$$?; rm -f $$log; exit $$status

# all tests of crates, unproved, side by side: minutes in place of hours for who changes something; no gate
try:
	@tools/try.py

# one crate, proved, and the scripts that concern it, with programs that are compiled unproved: make quick NAME=crate. No gate
.PHONY: quick
quick:
	@tools/quick.py $(NAME)

# the script program, proved and built
build:
	@tools/build.py cfdp_replay

# the server, the put and the program that commands a server, proved and built on all processors
programs:
	@tools/build.py cfdp_server cfdp_put cfdp_ctl

# the console in the browser, proved and built: it uses none of the server's crates, so this takes minutes
web:
	@tools/build.py cfdp_web

# a file of 4 MiB crosses loopback, through a relay that loses and doubles datagrams
transfer: programs
	@examples/transfer.sh $(server) $(put) 2 4194304 7 11

# the programs, in place, with a page of the manual for each
install: programs build install-lib
	install -d $(DESTDIR)$(PREFIX)/bin $(DESTDIR)$(PREFIX)/share/man/man1
	install -m 755 $(server) $(put) $(ctl) $(program) $(DESTDIR)$(PREFIX)/bin
	install -m 644 $(addprefix docs/man/,cfdp_server.1 cfdp_put.1 cfdp_ctl.1 cfdp_replay.1) $(DESTDIR)$(PREFIX)/share/man/man1
	install -d $(DESTDIR)$(PREFIX)/share/bash-completion/completions
	install -m 644 docs/completion/cfdp_ctl $(DESTDIR)$(PREFIX)/share/bash-completion/completions

# the console, in place, with its page of the manual
install-web: web
	install -d $(DESTDIR)$(PREFIX)/bin $(DESTDIR)$(PREFIX)/share/man/man1
	install -m 755 $(web) $(DESTDIR)$(PREFIX)/bin
	install -m 644 docs/man/cfdp_web.1 $(DESTDIR)$(PREFIX)/share/man/man1

# the library for C and Python, proved and built, in build/: the first time this proves the entity of one thread and all
# below it
archive := crates/cfdp_c/out/libcfdp_c.a
lib:
	@tools/build.py cfdp_c
	@tools/archive.py "$${BINESUNSET_BUILD:-$$HOME/.cache/binesunset}/cfdp_c"
	@tools/lib.sh $(archive) $(PREFIX)

# the library, in place, with its header and what pkg-config reads
install-lib: lib
	install -d $(DESTDIR)$(PREFIX)/lib/pkgconfig $(DESTDIR)$(PREFIX)/include
	install -m 644 build/libcfdp.a build/libcfdp.so.0 $(DESTDIR)$(PREFIX)/lib
	ln -sf libcfdp.so.0 $(DESTDIR)$(PREFIX)/lib/libcfdp.so
	[ -n "$(DESTDIR)" ] || ldconfig || echo "run ldconfig as root, so that programs find libcfdp.so.0"
	install -m 644 include/cfdp.h $(DESTDIR)$(PREFIX)/include
	install -m 644 build/cfdp.pc $(DESTDIR)$(PREFIX)/lib/pkgconfig

# a Debian package of all programs, installed into a folder and tried
.PHONY: deb
deb: programs build web
	@tools/deb.sh $(server) $(put) $(ctl) $(web) $(program)

# Debian packages of the library, installed into a folder and tried
.PHONY: deb-lib
deb-lib: lib
	@tools/deb-lib.sh

# the console as a person sees it, in Chromium, over a simulated station and a running one, with the pictures in docs made anew;
# no part of the gate. The first time this proves the server and all below it
browser: web
	@tools/build.py cfdp_server
	@tests/browser.py $(web) $(server) docs/pictures/console.png

# each allocation refused in turn, and changed datagrams: the programs for both are proved and built
memory:
	@tools/build.py hostile_runs cfdp_replay
	@tests/memory.py $(hostile) $(program)

# the gate: every proof from nothing, the must-fail edits, the tests and the programs, and how runs of the programs end
test:
	@tests/preflight.sh
	@tests/layers.sh
	@tests/version.sh
	@tests/locks.py
	@tests/same.sh
	@tests/trusted.py --check
	@tests/crates.py --check
	@tests/keys.py --check
	@tests/callers.py
	@PREFIX=$(PREFIX) tools/gate.py

# how fast and how large a run is; no part of the gate
bench: build programs
	@tools/build.py benches
	@status=0; \
	python3 bench/bench.py $(program) || status=1; \
	python3 bench/instructions.py $(program) $(benches) || status=1; \
	python3 bench/cores.py $(benches) || status=1; \
	python3 bench/queues.py $(benches) || status=1; \
	python3 bench/entity.py $(benches) || status=1; \
	python3 bench/programs.py $(server) $(put) $(benches) || status=1; \
	python3 bench/datagrams.py $(server) $(put) || status=1; \
	python3 bench/control.py $(server) || status=1; \
	exit $$status

# many files at once between stations, by their lanes and users, and the same over links that lose datagrams: some minutes
.PHONY: bench-many
bench-many: programs
	python3 bench/many.py $(server)
	python3 bench/many.py $(server) --loss 5

# ten minutes of files over a bad link, with an eye on memory; the gate has a minute of it
soak: programs
	@tests/soak.py $(server)
