# Builds the programs, and installs them with their pages: make install PREFIX=/usr/local. `make` proves what it builds,
# which takes hours where nothing is kept from earlier runs.

PREFIX ?= /usr/local
DESTDIR ?=
PROGRAMS = artrun dial_plan path_index route_table word_count
BUILT = $(foreach name,$(PROGRAMS),crates/$(name)/out/$(name))
BIN = $(DESTDIR)$(PREFIX)/bin
MAN = $(DESTDIR)$(PREFIX)/share/man/man1

all: $(BUILT)

# A program is built with all that it needs. One that is there stays as it is; `make clean` removes them.
$(BUILT):
	tools/build $(notdir $@)

install: $(BUILT)
	mkdir -p $(BIN) $(MAN)
	for name in $(PROGRAMS); do \
	    install -m 755 crates/$$name/out/$$name $(BIN)/$$name && \
	    tools/man crates/$$name/out/$$name > $(MAN)/$$name.1 || exit 1; \
	done

uninstall:
	for name in $(PROGRAMS); do rm -f $(BIN)/$$name $(MAN)/$$name.1; done

clean:
	rm -f $(BUILT)

.PHONY: all install uninstall clean
