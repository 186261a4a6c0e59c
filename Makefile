# make                the two archives and the programs capcheck and capsize, all proved
# make library        the archives alone: libkelzoud.a and libkelzoud-events.a, in target/lib
# make program        the programs alone, in target/bin
# make install        into PREFIX, below DESTDIR where that is set
# make install-built  the same, of what is built, up to date or not
# make uninstall      takes away what was installed there
# make test           the gate
# make bench          each call's time beside the Rust baseline's
# make stack          each call's stack
# make clean          takes away what was built

PREFIX ?= /usr/local
VERSION := $(shell sed -n 's/^version=//p' front.sh)
RT ?= rt
CARGO ?= cargo
INSTALL ?= install

# The crates that export to C, each crate's own archive, and the archives that are linked.
exports := kelzoud_events_c kelzoud_c columns_c sizes_c
proved := $(foreach crate,$(exports),crates/$(crate)/out/lib$(crate).a)
libraries := target/lib
archives := $(libraries)/libkelzoud.a $(libraries)/libkelzoud-events.a
packages := kelzoud.pc kelzoud-events.pc
# Each command is a script in front of a program of the same name; what the scripts share stands beside the programs.
commands := capcheck capsize
programs := $(addprefix target/bin/,$(commands))
root := $(DESTDIR)$(PREFIX)
# What is built is built again where one of these is newer.
sources := crates.txt $(shell find $(wildcard crates/*/src crates/*/specs crates/*/proofs))

.PHONY: all library program install install-built uninstall test bench stack clean

all: library program

library: $(archives)

# rt proves what it builds, and the crates below, over what earlier checks kept. It leaves each in its crate's out/.
$(proved): $(sources)
	cd $(dir $(@D)) && $(RT) lib

# The calls for events are exported by a crate of their own, so that they can be linked alone, and those
# for columns and for table sizes by two others, which no other library needs. The whole library has the
# objects of all four.
$(libraries)/libkelzoud.a: $(proved)
	rm -rf $(libraries)/objects $@
	mkdir -p $(libraries)/objects
	cd $(libraries)/objects && for archive in $^; do $(AR) x ../../../$$archive || exit 1; done
	$(AR) rcs $@ $(libraries)/objects/*.o
	rm -r $(libraries)/objects

$(libraries)/libkelzoud-events.a: crates/kelzoud_events_c/out/libkelzoud_events_c.a
	mkdir -p $(libraries)
	cp $< $@

program: $(programs)

# rt runs a program once when it has built it: here on no input.
$(programs): $(sources)
	cd crates/$(@F) && $(RT) run < /dev/null > /dev/null
	mkdir -p $(@D)
	cp crates/$(@F)/out/$(@F) $@

install: all
	$(MAKE) install-built

install-built:
	$(INSTALL) -d $(root)/include $(root)/lib/pkgconfig $(root)/bin $(root)/libexec/kelzoud
	$(INSTALL) -m 644 include/kelzoud.h $(root)/include/
	$(INSTALL) -m 644 $(archives) $(root)/lib/
	$(INSTALL) -m 755 $(commands) $(root)/bin/
	$(INSTALL) -m 755 $(programs) $(root)/libexec/kelzoud/
	$(INSTALL) -m 644 front.sh $(root)/libexec/kelzoud/
	for package in $(packages); do \
	    sed -e 's|@PREFIX@|$(PREFIX)|' -e 's|@VERSION@|$(VERSION)|' $$package.in \
	        > $(root)/lib/pkgconfig/$$package || exit 1; \
	done

uninstall:
	rm -f $(root)/include/kelzoud.h $(addprefix $(root)/bin/,$(commands)) \
	    $(addprefix $(root)/libexec/kelzoud/,$(commands) front.sh) \
	    $(addprefix $(root)/lib/,$(notdir $(archives))) \
	    $(addprefix $(root)/lib/pkgconfig/,$(packages))
	if [ -d $(root)/libexec/kelzoud ]; then rmdir $(root)/libexec/kelzoud; fi

test:
	.ci/run

bench: library
	KELZOUD_LIB=$(libraries) $(CARGO) run --quiet --release --manifest-path bench/Cargo.toml

stack: library
	$(CC) -std=gnu99 -O1 -Wall -Wextra -Werror -Iinclude bench/stack.c $(libraries)/libkelzoud.a -o target/stack
	target/stack

clean:
	rm -rf target tests/target bindings/rust/target crates/*/out
