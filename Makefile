# make             proves the crates and builds, for this machine and in target/package, libsimbolufa.a and the command
# make install     installs them under PREFIX, below DESTDIR where it is set, with headers, a pkg-config file and a CMake
#                  package. The nightly pass is installed too where CaDiCaL is there (Debian: libcadical-dev)
# make uninstall   removes what install put there
# make nightly     builds the nightly pass over the library of this tree, target/nightly/nightly
# make clean       removes what these built. What is proved stays
VERSION := $(shell sed -n 's/^.define SIMBOLUFA_VERSION "\(.*\)"$$/\1/p' include/simbolufa.h)
PREFIX ?= /usr/local
INSTALL ?= install
CFLAGS ?= -O2

archive := target/staticlib/libhost.a
object := target/obj/simbolufa.o
out := target/package
library := $(out)/libsimbolufa.a
command := $(out)/simbolufa
headers := include/simbolufa.h include/simbolufa.hpp include/simbolufa_node_file.h include/simbolufa_sat_file.h
pages := LICENSE docs/NODEFILE.md docs/SATFILE.md
package := lib/cmake/Simbolufa
# What install puts there, below PREFIX.
installed := bin/simbolufa bin/nightly $(headers) lib/libsimbolufa.a lib/pkgconfig/simbolufa.pc \
    $(package)/SimbolufaConfig.cmake $(package)/SimbolufaConfigVersion.cmake \
    $(addprefix share/doc/simbolufa/,$(notdir $(pages)))
# Folders too: a file that is taken away changes its folder. What rt makes of a crate stands beside these.
crates := crates.txt $(shell find crates/*/src crates/*/specs crates/*/proofs 2>/dev/null)
# Recipes have these from the environment: a path may have a space, or what make or the shell would read.
export PREFIX
export root := $(DESTDIR)$(PREFIX)
# One build at a time. The lock is that of ./simbolufa.
prove := flock crates.txt tools/prove

# Whether a program can be built with CaDiCaL.
has_cadical = printf '\043include <cadical.hpp>\nint main() { CaDiCaL::Solver one; }\n' | \
    $(CXX) $(CPPFLAGS) $(LDFLAGS) -x c++ -o $(out)/has_cadical - -lcadical >/dev/null 2>&1

.PHONY: all install uninstall nightly clean prefix

all: $(library) $(command)

# Proves what has changed.
$(archive): $(crates)
	@$(prove) archive

$(object): $(crates) | $(archive)
	@$(prove) program

# The archive is for x86-64. For another machine the proved crate is built once more.
$(library): $(archive) tools/native-object
	mkdir -p $(out)
	rm -f $@
	tools/native-object host $@

# The command is the proved program, compiled for this machine, between the command's own main, read and write.
$(command): $(object) command/command.c command/words.h $(headers) tools/native-object
	mkdir -p $(out)
	tools/native-object simbolufa $(out)/program.o
	$(CC) -std=c99 -Wall -Wextra -pedantic $(CPPFLAGS) $(CFLAGS) -Iinclude $(LDFLAGS) -o $@ command/command.c $(out)/program.o \
	    -Wl,--wrap=main,--wrap=read,--wrap=write

# A pkg-config file has no form for these characters.
prefix:
	@case $$PREFIX in /*) ;; *) echo 'PREFIX is not an absolute path' >&2; exit 1 ;; esac
	@case $$PREFIX in *[[:cntrl:]\"\'\\\`\$$\#]*) echo 'PREFIX has a quote, \, $$, # or a control character' >&2; exit 1 ;; esac

# The pkg-config file is made at each install, since PREFIX may be another one. It tells other folders where to look.
install: prefix $(library) $(command)
	sed "s|@PREFIX@|$$(printf '%s' "$$PREFIX" | sed 's/[&|]/\\&/g')|; s|@VERSION@|$(VERSION)|" simbolufa.pc.in >$(out)/simbolufa.pc
	sed 's|@VERSION@|$(VERSION)|' cmake/SimbolufaConfigVersion.cmake.in >$(out)/SimbolufaConfigVersion.cmake
	$(INSTALL) -d $(foreach folder,bin include lib/pkgconfig $(package) share/doc/simbolufa,"$$root/$(folder)")
	$(INSTALL) $(command) "$$root/bin"
	$(INSTALL) -m 644 $(headers) "$$root/include"
	$(INSTALL) -m 644 $(library) "$$root/lib"
	$(INSTALL) -m 644 $(out)/simbolufa.pc "$$root/lib/pkgconfig"
	$(INSTALL) -m 644 cmake/SimbolufaConfig.cmake $(out)/SimbolufaConfigVersion.cmake "$$root/$(package)"
	$(INSTALL) -m 644 $(pages) "$$root/share/doc/simbolufa"
	@if $(has_cadical); then \
	    $(MAKE) nightly && $(INSTALL) target/nightly/nightly "$$root/bin"; \
	else \
	    echo 'The nightly pass is not installed: there is no CaDiCaL (Debian: libcadical-dev)'; \
	fi

uninstall: prefix
	rm -f $(foreach file,$(installed),"$$root/$(file)")
	rmdir "$$root/$(package)" "$$root/share/doc/simbolufa" 2>/dev/null || true

nightly: $(library)
	$(MAKE) -C examples/host OUT=../../target/nightly SIMBOLUFA_CFLAGS=-I../../include SIMBOLUFA_LIBS=../../$(library)

clean:
	rm -rf $(out) target/nightly
