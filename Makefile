# SCORE_LIBRARY_DIR names a folder that has a libscore.a; where it is not set, the library is proved and built.
ifdef SCORE_LIBRARY_DIR
archive = $(SCORE_LIBRARY_DIR)/libscore.a
else
archive = target/staticlib/libscore.a
endif

CC = gcc
CFLAGS = -std=c99 -O2 -Wall -Wextra -pedantic -Werror -Iinclude

# The runner's binary. Where it has been built, it is installed as score-runner.
RUNNER = target/bin/runner

# The program score, of which tool/build builds what has changed.
PROGRAM = build/tool/release/score

# Where make install puts things: include/, lib/, lib/pkgconfig/, bin/ and share/ in it. DESTDIR is put before it.
PREFIX = /usr/local
prefix = $(abspath $(PREFIX))
VERSION = 4.1.0

# A library made of an engine that is written by hand, passes or linear, for trying the tests.
ENGINE = linear
standin = build/standin-$(ENGINE)

.PHONY: all run check-example test bench install install-library install-tool clean library runner tool standin

all: library runner tool build/check build/console build/settings build/translate

run: runner
	cd sample && $(abspath $(RUNNER))

check-example: build/check
	build/check sample/score

test:
	.ci/run

bench: build/bench build/stack
	build/bench sample/score
	@echo
	@size $(archive) | awk 'NR > 1 { print "code: " $$1 " bytes, data that changes: " $$2 + $$3 }'
	@build/stack sample/score

install: install-library install-tool

install-library: library runner
	install -d $(DESTDIR)$(prefix)/include $(DESTDIR)$(prefix)/lib/pkgconfig
	install -m 644 include/score.h $(DESTDIR)$(prefix)/include/score.h
	install -m 644 $(archive) $(DESTDIR)$(prefix)/lib/libscore.a
	sed -e 's|@PREFIX@|$(prefix)|' -e 's|@VERSION@|$(VERSION)|' score.pc.in > $(DESTDIR)$(prefix)/lib/pkgconfig/score.pc
	if [ -e $(RUNNER) ]; then \
	    install -d $(DESTDIR)$(prefix)/bin && install -m 755 $(RUNNER) $(DESTDIR)$(prefix)/bin/score-runner; \
	fi

install-tool: tool
	install -d $(DESTDIR)$(prefix)/bin $(DESTDIR)$(prefix)/share/man/man1 $(DESTDIR)$(prefix)/share/bash-completion/completions
	install -m 755 $(PROGRAM) $(DESTDIR)$(prefix)/bin/score
	install -m 644 tool/score.1 $(DESTDIR)$(prefix)/share/man/man1/score.1
	$(PROGRAM) completion > build/completion
	install -m 644 build/completion $(DESTDIR)$(prefix)/share/bash-completion/completions/score

clean:
	rm -rf build target

build/check build/console build/settings build/translate: library
	mkdir -p build
	$(CC) $(CFLAGS) examples/$(@F).c $(archive) -o $@

build/bench: library
	mkdir -p build
	$(CC) $(CFLAGS) bench/*.c $(archive) -o $@

build/stack: library
	mkdir -p build
	$(CC) -Wall -Wextra -pedantic -Werror -Iinclude tests/stack.c $(archive) -o $@

standin:
	mkdir -p $(standin)
	cd $(standin) && $(CC) $(CFLAGS) -I../../include -Dbaseline_check=score_check \
	    -Dbaseline_check_draft=standin_check_draft -Dbaseline_translate=score_translate \
	    -D$(ENGINE)_instant=score_instant -D$(ENGINE)_run=score_run -D$(ENGINE)_journal_check=score_journal_check \
	    -D$(ENGINE)_settings=score_settings \
	    -c ../../bench/baseline.c ../../bench/translate.c ../../bench/calls.c ../../bench/$(ENGINE).c
	rm -f $(standin)/libscore.a
	ar rcs $(standin)/libscore.a $(standin)/*.o

library:
ifndef SCORE_LIBRARY_DIR
	tools/library
endif

runner:
ifndef SCORE_LIBRARY_DIR
	tools/runner
endif

tool: library
	tool/build
