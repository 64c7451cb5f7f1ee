# make               the command and the library, in target/
# make install       the command, its man page, the C header, the reader's archives and their pkg-config file, below PREFIX (in DESTDIR, if given)
# make uninstall     takes them away again
# make check         the gate
# make clean         removes the command; what is proved stays
PREFIX = /usr/local
DESTDIR =
CFLAGS = -O2
# The compiler, where the caller names one; else command/build knows which.
ifeq ($(origin CC),default)
CC =
endif

prefix = $(abspath $(PREFIX))
root = $(DESTDIR)$(prefix)
installed = bin/doortumble bin/doortumble.x86-64 share/man/man1/doortumble.1 include/doortumble.h lib/libdoortumble.a lib/libnest_call.a lib/libevent_call.a lib/pkgconfig/doortumble.pc

# The reader's archives, which command/build builds.
archives = $(addprefix target/staticlib/lib,doortumble.a nest_call.a event_call.a)

# The command; where an emulator runs it, a script and the program that it starts.
programs = $$(ls target/command/doortumble target/command/doortumble.x86-64 2>/dev/null)

all:
	@CC='$(CC)' CFLAGS='$(CFLAGS)' command/build

install: all
	install -d $(addprefix '$(root)'/,bin share/man/man1 include lib/pkgconfig)
	install -m 755 $(programs) '$(root)/bin/'
	install -m 644 command/doortumble.1 '$(root)/share/man/man1/'
	install -m 644 include/doortumble.h '$(root)/include/'
	install -m 644 $(archives) '$(root)/lib/'
	sed 's|@PREFIX@|$(prefix)|; s|@VERSION@|'"$$(cat command/VERSION)"'|' command/doortumble.pc.in >'$(root)/lib/pkgconfig/doortumble.pc'

uninstall:
	rm -f $(addprefix '$(root)'/,$(installed))

check:
	.ci/run

clean:
	rm -rf target/command

.PHONY: all install uninstall check clean
