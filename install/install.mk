# Installing, as docs/INSTALL.md says it.
.PHONY: shared programs ready install uninstall install-test

# Where to: PREFIX is what the installed files know of themselves, DESTDIR a folder that stands before it while a package is made.
PREFIX = /usr/local
DESTDIR =
PLACE = $(DESTDIR)$(abspath $(PREFIX))

VERSION := $(shell sed -n 's/^\#define HULLASHLAR_VERSION "\(.*\)"$$/\1/p' include/hullashlar.h)
MAJOR := $(firstword $(subst ., ,$(VERSION)))
SHARED = libhullashlar.so.$(VERSION)

# Programs are code for x86-64; on another machine they are left out.
PROGRAMS = $(if $(filter x86_64,$(MACHINE)),sheet_tensor sheet_report device_curve)
DOUBLES = target/staticlib/libhullashlar_doubles.a

# The archive as a shared library, which shows the calls of the header and nothing else.
shared: archive-here
	mkdir -p target/shared
	gcc -shared -nostartfiles -Wl,--whole-archive $(ARCHIVES)/libhullashlar.a -Wl,--no-whole-archive -Wl,--no-undefined \
	    -Wl,-soname,libhullashlar.so.$(MAJOR) -Wl,--version-script=install/exported.map -Wl,-z,relro,-z,now -o target/shared/$(SHARED)

programs:
	$(if $(PROGRAMS),tools/build.sh $(PROGRAMS))

# All that is installed. `make ready` as oneself and `sudo make -o ready install` afterwards has nothing proved or linked by root.
ready: shared programs

# Fills a template in, to a folder of lib.
fill = sed -e 's|@PREFIX@|$(abspath $(PREFIX))|g' -e 's|@VERSION@|$(VERSION)|g' -e 's|@MAJOR@|$(MAJOR)|g' -e 's|@MACHINE@|$(MACHINE)|g' \
    install/$(1).in | install -D -m 644 /dev/stdin $(PLACE)/lib/$(2)/$(1)

# What an install puts below PREFIX. The archive of double arithmetic and its header are put there where `make doubles` has made the
# archive.
OF_DOUBLES = include/hullashlar_doubles.h lib/libhullashlar_doubles.a
INSTALLED = include/hullashlar.h lib/libhullashlar.a lib/$(SHARED) lib/libhullashlar.so.$(MAJOR) lib/libhullashlar.so \
    lib/pkgconfig/hullashlar.pc lib/cmake/hullashlar/hullashlarConfig.cmake lib/cmake/hullashlar/hullashlarConfigVersion.cmake \
    $(PROGRAMS:%=bin/%) $(PROGRAMS:%=share/man/man1/%.1) share/man/man3/hullashlar.3 share/doc/hullashlar/NOTICE

install: ready
	install -D -m 644 -t $(PLACE)/include include/hullashlar.h
	install -D -m 644 -t $(PLACE)/lib $(ARCHIVES)/libhullashlar.a
	install -D -m 755 -t $(PLACE)/lib target/shared/$(SHARED)
	ln -sf $(SHARED) $(PLACE)/lib/libhullashlar.so.$(MAJOR)
	ln -sf libhullashlar.so.$(MAJOR) $(PLACE)/lib/libhullashlar.so
	$(call fill,hullashlar.pc,pkgconfig)
	$(call fill,hullashlarConfig.cmake,cmake/hullashlar)
	$(call fill,hullashlarConfigVersion.cmake,cmake/hullashlar)
	$(if $(PROGRAMS),install -D -m 755 -t $(PLACE)/bin $(PROGRAMS:%=target/bin/%))
	$(if $(PROGRAMS),install -D -m 644 -t $(PLACE)/share/man/man1 $(PROGRAMS:%=man/%.1))
	install -D -m 644 -t $(PLACE)/share/man/man3 man/hullashlar.3
	install -D -m 644 -t $(PLACE)/share/doc/hullashlar NOTICE
	$(if $(wildcard $(DOUBLES)),install -D -m 644 -t $(PLACE)/include include/hullashlar_doubles.h)
	$(if $(wildcard $(DOUBLES)),install -D -m 644 -t $(PLACE)/lib $(DOUBLES))

# The same files go, and of the folders those that are the library's own, where nothing else stands in them.
uninstall:
	rm -f $(addprefix $(PLACE)/,$(INSTALLED) $(OF_DOUBLES))
	rmdir $(PLACE)/lib/cmake/hullashlar $(PLACE)/share/doc/hullashlar 2> /dev/null || true

# Installs into a folder of its own, uses what stands there as a host does, by pkg-config, CMake and man, and removes it again.
install-test: ready
	python3 install/check.py $(VERSION)
