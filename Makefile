# Installs and checks the release that stands in dist/ (x86-64 Linux). Nothing is proved here; `make dist` proves and builds dist/ anew.
VERSION := $(shell cat VERSION)
PREFIX ?= /usr/local
DESTDIR ?=
CC ?= cc
CFLAGS ?= -std=c99 -O2 -Wall -Wextra -Werror
BUILD := target/make
TO := $(DESTDIR)$(PREFIX)

.PHONY: all sums check install uninstall dist clean

all: sums $(BUILD)/sheet
	@echo "shupkelen $(VERSION): dist/ is as its sums say; the examples in C are in $(BUILD)"

# Is dist/ what it was when it was built?
sums:
	cd dist && sha256sum --quiet -c SHA256SUMS

$(BUILD)/%: bindings/c/%.c dist/include/shupkelen.h dist/lib/libshupkelen.a
	@mkdir -p $(BUILD)
	$(CC) $(CFLAGS) -Idist/include $< dist/lib/libshupkelen.a -o $@

# The examples in C, and the programs on the sheets of examples/
check: sums $(BUILD)/k2 $(BUILD)/sheet
	$(BUILD)/k2 | cmp - bindings/c/k2.out
	$(BUILD)/sheet < examples/01-kilometres.sheet | cmp - bindings/c/sheet.out
	dist/bin/check_edition --version | grep -qF "$(VERSION)"
	dist/bin/check_edition examples/01-kilometres.sheet > $(BUILD)/report.txt
	@echo "shupkelen $(VERSION): all checks pass"

install: sums
	install -d "$(TO)/bin" "$(TO)/include" "$(TO)/lib/pkgconfig" "$(TO)/share/man/man1" "$(TO)/share/doc/shupkelen"
	install -m 755 dist/bin/* "$(TO)/bin"
	install -m 644 dist/include/shupkelen.h "$(TO)/include"
	install -m 644 dist/lib/libshupkelen.a "$(TO)/lib"
	install -m 644 dist/lib/pkgconfig/shupkelen.pc "$(TO)/lib/pkgconfig"
	install -m 644 dist/share/man/man1/* "$(TO)/share/man/man1"
	install -m 644 NOTICE LICENSE CHANGELOG.md "$(TO)/share/doc/shupkelen"

uninstall:
	cd dist/bin && for f in *; do rm -f "$(TO)/bin/$$f"; done
	cd dist/share/man/man1 && for f in *; do rm -f "$(TO)/share/man/man1/$$f"; done
	rm -f "$(TO)/include/shupkelen.h" "$(TO)/lib/libshupkelen.a" "$(TO)/lib/pkgconfig/shupkelen.pc"
	rm -rf "$(TO)/share/doc/shupkelen"

# Needs the kit (rt): proves what stands below the library and the programs, and builds them
dist:
	sh tools/dist.sh

clean:
	rm -rf $(BUILD)
