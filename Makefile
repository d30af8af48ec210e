# `make test` is the whole gate. `make bench` measures; it is no part of the gate. `make sheet`, `make audit` and `make fleet` prove
# and build the sheet, the auditor's page and the fleet's sheet, and run each on its sample.
.PHONY: test bench sheet audit fleet lib hosts install uninstall test-hosts

test:
	@bash tests/gate.sh

bench:
	@bash bench/run.sh

sheet:
	@tests/needs.sh
	@tests/run_built.sh sheet < crates/sheet/stdin

audit:
	@tests/needs.sh
	@tests/run_built.sh audit < crates/audit/stdin

fleet:
	@tests/needs.sh
	@tests/run_built.sh fleet < crates/fleet/stdin

# The library, the tool and the block device. FOR names the processor, this machine's if nothing is said; a library for another one
# asks for its cross compiler (Debian: gcc-aarch64-linux-gnu).
VERSION := 0.1
PREFIX ?= /usr/local
FOR ?= $(shell uname -m)
MADE := target/hosts/$(FOR)
CROSS := $(if $(filter-out $(shell uname -m),$(FOR)),$(FOR)-linux-gnu-)
HOST_CC := $(CROSS)gcc -std=c11 -D_GNU_SOURCE -O2 -Wall -Wextra -Werror -fPIC -Iinclude
PROVED := crates.txt $(shell find crates -name out -prune -o \( -name '*.rt' -o -name '*.antt' \) -print)
COMMON := $(wildcard host/common/*.c)
TOOL := $(wildcard host/ngt/*.c)
DEVICE := $(wildcard host/nbdkit/*.c)
HEADERS := include/ngt.h $(wildcard host/*/*.h)
PLUGIN := $(if $(CROSS),,$(shell pkg-config --exists nbdkit 2>/dev/null && echo $(MADE)/nbdkit-ngt-plugin.so))

lib: $(MADE)/libngt.a $(MADE)/libngt.so.$(VERSION) $(MADE)/ngt.pc
	@echo "lib: $(MADE)"

hosts: lib $(MADE)/ngt $(PLUGIN)

$(MADE)/libngt.a: $(PROVED) host/lib.sh
	@mkdir -p $(MADE)
	@host/lib.sh $(FOR) $@

$(MADE)/libngt.so.$(VERSION): $(MADE)/libngt.a host/exports.map
	@$(CROSS)gcc -shared -Wl,-soname,libngt.so.0 -Wl,--version-script=host/exports.map -Wl,--whole-archive $< -Wl,--no-whole-archive -o $@
	@ln -sf libngt.so.$(VERSION) $(MADE)/libngt.so.0
	@ln -sf libngt.so.0 $(MADE)/libngt.so

$(MADE)/ngt.pc: host/ngt.pc.in FORCE
	@sed -e 's|@PREFIX@|$(PREFIX)|' -e 's|@VERSION@|$(VERSION)|' $< > $@

$(MADE)/ngt: $(TOOL) $(COMMON) $(HEADERS) $(MADE)/libngt.a
	@$(HOST_CC) -o $@ $(TOOL) $(COMMON) $(MADE)/libngt.a

$(MADE)/nbdkit-ngt-plugin.so: $(DEVICE) $(COMMON) $(HEADERS) $(MADE)/libngt.a
	@$(HOST_CC) $(shell pkg-config --cflags nbdkit) -shared -fvisibility=hidden -pthread -o $@ $(DEVICE) $(COMMON) -Wl,--exclude-libs,ALL $(MADE)/libngt.a

install: hosts
	install -d $(DESTDIR)$(PREFIX)/bin $(DESTDIR)$(PREFIX)/include $(DESTDIR)$(PREFIX)/lib/pkgconfig
	install -m 755 $(MADE)/ngt $(DESTDIR)$(PREFIX)/bin/
	install -m 644 include/ngt.h $(DESTDIR)$(PREFIX)/include/
	install -m 644 $(MADE)/libngt.a $(MADE)/libngt.so.$(VERSION) $(DESTDIR)$(PREFIX)/lib/
	ln -sf libngt.so.$(VERSION) $(DESTDIR)$(PREFIX)/lib/libngt.so.0
	ln -sf libngt.so.0 $(DESTDIR)$(PREFIX)/lib/libngt.so
	install -m 644 $(MADE)/ngt.pc $(DESTDIR)$(PREFIX)/lib/pkgconfig/
	$(if $(PLUGIN),install -d $(DESTDIR)$(PREFIX)/lib/nbdkit/plugins && install -m 755 $(PLUGIN) $(DESTDIR)$(PREFIX)/lib/nbdkit/plugins/)

uninstall:
	rm -f $(DESTDIR)$(PREFIX)/bin/ngt $(DESTDIR)$(PREFIX)/include/ngt.h $(DESTDIR)$(PREFIX)/lib/pkgconfig/ngt.pc
	rm -f $(DESTDIR)$(PREFIX)/lib/libngt.a $(DESTDIR)$(PREFIX)/lib/libngt.so $(DESTDIR)$(PREFIX)/lib/libngt.so.0 $(DESTDIR)$(PREFIX)/lib/libngt.so.$(VERSION)
	rm -f $(DESTDIR)$(PREFIX)/lib/nbdkit/plugins/nbdkit-ngt-plugin.so

test-hosts:
	@bash tests/hosts.sh

FORCE:
