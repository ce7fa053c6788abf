# `make demo` shows the main job on the sample; `make program` compiles the program without proving it;
# `make build` proves and builds it; `make test` is the merge gate.
# `rt` is the command of the Rattle kit: it proves, builds and runs.
PREFIX ?= /usr/local
PROGRAM := crates/undorc/out/undorc
UNPROVED := out/undorc-unproved

.PHONY: build check clean crates deb demo model pages program test install uninstall release

# Only a proved crate is built, so the first build proves everything below the program. `make test`
# builds the program too.
build:
	@tests/gate/build.sh $(PROGRAM)

# Shows the proved program where it is there, else the program as it stands, with nothing proved.
demo:
	@tests/gate/demo.sh $(PROGRAM) $(UNPROVED)

# The program as it stands, with nothing proved, for trying it and for the tests from outside.
program:
	@tests/gate/unproved.sh $(UNPROVED)

# The list of definitions with the contracts that name them, from the sources; it is not kept in git.
model:
	@tests/gate/words.py > docs/WORDS.md

# The descriptions of the crates, from the heads of their root files.
crates:
	@tests/gate/crates.py

# The lists of the man pages that are tables of docs/FORMATS.md and docs/COMMANDS.md, and the synopsis.
pages:
	@tests/gate/manual.py

test:
	@tests/gate/all.sh

# The program, the man pages, the completion, contrib and the documents.
install: build
	DESTDIR="$(DESTDIR)" PREFIX="$(PREFIX)" sh packaging/install.sh $(PROGRAM)

# What `make install` installed under this PREFIX, and nothing else.
uninstall:
	DESTDIR="$(DESTDIR)" PREFIX="$(PREFIX)" sh packaging/uninstall.sh

# An archive of what `make install` copies, with what was proved, and a Debian package of the same.
release: build
	packaging/release.sh $(PROGRAM) .

deb: build
	packaging/deb.sh $(PROGRAM) .

# Tries the program that is installed under this PREFIX, without the kit.
check:
	@sh packaging/check.sh "$(DESTDIR)$(PREFIX)/bin/undorc"

# Archives, packages and the unproved program. Proofs stay in crates/*/out, since they take an hour.
clean:
	rm -rf out undorc-*.tar.gz undorc_*.deb SHA256SUMS SHA256SUMS.asc
