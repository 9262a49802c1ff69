# make            proves and builds the library and the program
# make test       the gate
# make install    into PREFIX, below DESTDIR if that is set
# make uninstall
PREFIX = /usr/local
DESTDIR =
VERSION = 0.3.0

library = crates/tco/out/libtco.a
program = crates/account/out/account
libexec = $(PREFIX)/libexec/tco
to = $(DESTDIR)$(PREFIX)
sources = crates.txt $(shell find crates \( -name must-fail -o -name out \) -prune -o -type f -print)

.PHONY: all test install uninstall
.NOTPARALLEL:

all: $(library) $(program)

$(library): $(sources)
	cd crates/tco && rt lib
	touch $@

# `rt run` builds the program and then runs it, here on a journal of no bytes.
$(program): $(sources)
	rm -f $@
	cd crates/account && rt run </dev/null >/dev/null || test -x out/account

test:
	.ci/run

install: all
	install -d "$(to)/lib/pkgconfig" "$(to)/include" "$(to)/bin" "$(DESTDIR)$(libexec)" "$(to)/share/man/man1"
	install -m 644 $(library) "$(to)/lib/libtco.a"
	install -m 644 include/tco.h "$(to)/include/tco.h"
	sed 's|@PREFIX@|$(PREFIX)|; s|@VERSION@|$(VERSION)|' packaging/tco.pc.in >"$(to)/lib/pkgconfig/tco.pc"
	install $(program) "$(DESTDIR)$(libexec)/account"
	sed 's|@PROGRAM@|$(libexec)/account|' packaging/account.in | cat - packaging/account.sh >"$(to)/bin/account"
	chmod 755 "$(to)/bin/account"
	chmod 644 "$(to)/lib/pkgconfig/tco.pc"
	install -m 644 packaging/account.1 "$(to)/share/man/man1/account.1"

uninstall:
	rm -f "$(to)/lib/libtco.a" "$(to)/lib/pkgconfig/tco.pc" "$(to)/include/tco.h" "$(to)/bin/account" \
		"$(DESTDIR)$(libexec)/account" "$(to)/share/man/man1/account.1"
	-rmdir "$(DESTDIR)$(libexec)"
