# make               proves and builds initd and initctl on all processors: JOBS=2 on two, VERBOSE=1 with all that rt says
# make demo          the same, and replays one service: README.md's first command
# make check         the gate, its second: proofs, tests, wrong bodies, programs
# make test          the tests of the built programs; NAME=test_limits.Limits those that are named
# make install       copies the programs, pages and completions below PREFIX and DESTDIR; make uninstall removes them
# make dist          packs them for machines without Rattle
# make clean         removes all that was built here
PREFIX ?= /usr/local
DESTDIR ?=
JOBS ?=
VERBOSE ?=
NAME =

all:
	@JOBS='$(JOBS)' VERBOSE='$(VERBOSE)' tools/build

demo: all
	crates/initd/out/initd < examples/one-service.bundle

check:
	tests/gate

test:
	tests/programs $(NAME)

install:
	PREFIX='$(PREFIX)' DESTDIR='$(DESTDIR)' tools/install

uninstall:
	PREFIX='$(PREFIX)' DESTDIR='$(DESTDIR)' tools/install --uninstall

dist: all
	tools/dist

clean:
	rm -rf out crates/*/out tadrovec-*.tar.gz

.PHONY: all demo check test install uninstall dist clean
