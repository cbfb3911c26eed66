# The program, its proofs and its tests. `make` alone says what there is.

ROOT := d8329fc1cc938780ffdd9f94e0d364e0ea74f579

# Where `make install` puts the program and the commands; DESTDIR goes before it where a package is made.
PREFIX ?= /usr/local
BIN = $(DESTDIR)$(PREFIX)/bin
LIB = $(DESTDIR)$(PREFIX)/lib/yakembi
MAN = $(DESTDIR)$(PREFIX)/share/man/man1
MANUAL := mountd.1 mount-git.1
COMMANDS := mount-git git-objects objects-from-git eden-shell check-session

.PHONY: help try run check test lint wrong-bodies soak bench fmt install uninstall

help: ## says what each target does
	@sed -n 's/^\([a-z-]*\): ##/\1:/p' Makefile

try: ## compiles mountd with no proof, and shows what it answers to examples/first-run.txt and changes.txt
	@scripts/try-mountd $(ROOT)

run: ## proves and builds mountd, and serves examples/first-run.txt on the sample commit
	@scripts/build-mountd
	@crates/mountd/out/mountd stdio --root $(ROOT) --objects examples/objects < examples/first-run.txt

check: ## proves and tests the crates that changed since they last passed, and those above them, for daily work
	@scripts/check-changed

test: ## proves everything from nothing, and runs every test: docs/GATE.md; its last line counts what passed
	@scripts/gate

lint: ## looks at layout, columns, types, pages and wrong bodies, and runs the tests that need nothing built, in two minutes
	@scripts/gate lint

wrong-bodies: ## tries the wrong bodies that the gate leaves out, or those of CRATE=NAME; goes on where it was stopped
	@scripts/wrong-bodies $(CRATE)

soak: ## a million random requests: the slow oracle beside the second table of operations, attempts beside the slow oracle, and events on mounts; ten minutes of many clients; many rounds in want of memory and room; each growth refused on a larger commit; remotes of partial clones that fail two hundred times; a million random requests that commits are made of; a hundred thousand damaged files of repositories; eleven million requests of one session, four clients for ten minutes, three million requests of a mount, a million messages of a folder, and two thousand commands of Git in one
	tests/oracle 1000000
	scripts/soak-rows
	@scripts/build-mountd
	tests/pressure crates/mountd/out/mountd 2000
	@cd crates/test_growths && rt run < stdin | diff - stdout
	tests/refused-growths large
	tests/partial-clones 200
	seq 25 | xargs -P 2 -I SEED tests/commits crates/mountd/out/mountd SEED 40000 -k test_random
	seq 25 | xargs -P 2 -I SEED tests/git-repositories crates/mountd/out/mountd 4000 SEED -k Damaged
	tests/git-status crates/mountd/out/mountd 1 600 2000 -k ByKernel
	tests/long-session crates/mountd/out/mountd 10000000 1000000 600
	tests/mounted crates/mountd/out/mountd 1 3000000 -k test_long_folder -k test_users -k test_random_files -k OverMessages -k test_kills_at_work

bench: ## times the work that grows with its input, at full size, and writes docs/measured/speed.md
	@scripts/bench

fmt: ## lays out every source and proof file
	@for crate in crates/*/; do (cd $$crate && rt fmt) || exit 1; done

install: ## puts mountd, which make run builds, the commands for Git and their manual below PREFIX=DIR, or /usr/local
	@test -x crates/mountd/out/mountd || { echo "install: mountd isn't built yet: make run" >&2; exit 1; }
	install -d "$(BIN)" "$(LIB)/yakembi"
	install crates/mountd/out/mountd "$(BIN)"
	cd scripts && install $(COMMANDS) "$(LIB)" && install -m 644 yakembi/*.py "$(LIB)/yakembi"
	install -d "$(MAN)" && cd docs/man && install -m 644 $(MANUAL) "$(MAN)"
	for command in $(COMMANDS); do ln -sf "../lib/yakembi/$$command" "$(BIN)/$$command"; done

uninstall: ## takes away what make install put below PREFIX=DIR
	rm -f "$(BIN)/mountd" $(foreach command,$(COMMANDS),"$(BIN)/$(command)")
	rm -f $(foreach page,$(MANUAL),"$(MAN)/$(page)")
	rm -rf "$(LIB)"
