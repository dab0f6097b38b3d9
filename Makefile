# Builds and installs the program: make, make install PREFIX=/usr/local [DESTDIR=..]
PREFIX = /usr/local
PROGRAM = crates/hepasync_cli/out/hepasync_cli

# `rt run` proves and builds it, and runs it on an empty trace; where nothing changed it only runs it.
all:
	cd crates/hepasync_cli && rt run -- ../../examples/delayed_sum/delayed_sum.ept </dev/null

install:
	@test -x $(PROGRAM) || { echo "the program is not built yet: run make first" >&2; exit 1; }
	install -d "$(DESTDIR)$(PREFIX)/bin" "$(DESTDIR)$(PREFIX)/share/man/man1"
	install -m 755 $(PROGRAM) "$(DESTDIR)$(PREFIX)/bin/hepasync"
	install -m 755 bin/hepasync-where "$(DESTDIR)$(PREFIX)/bin/hepasync-where"
	install -m 644 man/hepasync.1 "$(DESTDIR)$(PREFIX)/share/man/man1/hepasync.1"

uninstall:
	rm -f "$(DESTDIR)$(PREFIX)/bin/hepasync" "$(DESTDIR)$(PREFIX)/bin/hepasync-where" "$(DESTDIR)$(PREFIX)/share/man/man1/hepasync.1"

.PHONY: all install uninstall
