# make            prove the crates that have changed and build what is built from them: target/staticlib/libdnr.a and the command build/dnr
# make test       everything that the merge gate runs; ends in 'N passed, 0 failed'
# make bench      the library against the reference implementation and memcpy, side by side, at four places of the library
# make vectors    make the input and expected output of the programs vectors and boundaries anew from the reference implementation
# make install    the library, its header, dnr.pc for pkg-config and the programs dnr and dnr-capture, below DESTDIR and PREFIX
# make uninstall  remove what make install put there, with the same DESTDIR and PREFIX
# make fuzz       the library against the reference implementation on input that libFuzzer makes up, for SECONDS seconds (needs clang)
# make replay     the same comparison on the inputs of fuzz/corpus, once each (needs no clang)
# make corpus     make the inputs of fuzz/corpus anew from the pieces in examples
# What a target needs is proved and built first; nothing is done again for what has not changed.

PREFIX = /usr/local
DESTDIR =
SECONDS = 60

LIBRARY = target/staticlib/libdnr.a
# folders too: they change where a file is added or removed; without the crates' own, in which rt makes and removes out/
SOURCES := crates.txt $(shell find crates -mindepth 2 -regex 'crates/[^/]*/\(out\|must-fail\)' -prune -o -print)

.PHONY: all test bench vectors install uninstall fuzz replay corpus clean

all: $(LIBRARY) build/dnr

# tools/gate.sh makes it too, once rt ci has proved every crate
target/proved: $(SOURCES)
	rt all check
	@mkdir -p target && touch $@

$(LIBRARY): target/proved tools/library.sh
	sh tools/library.sh

build/dnr: target/proved tools/build.sh
	sh tools/build.sh

bench: $(LIBRARY)
	python3 tools/bench.py

test:
	@sh tools/gate.sh

vectors:
	cargo run --quiet --offline --release --manifest-path host/Cargo.toml -p vectors -- crates/vectors
	cargo run --quiet --offline --release --manifest-path host/Cargo.toml -p vectors -- boundaries crates/boundaries

install: $(LIBRARY) build/dnr
	install -d "$(DESTDIR)$(PREFIX)/include" "$(DESTDIR)$(PREFIX)/lib/pkgconfig" "$(DESTDIR)$(PREFIX)/bin"
	install -m 644 $(LIBRARY) "$(DESTDIR)$(PREFIX)/lib/libdnr.a"
	install -m 644 include/dnr.h "$(DESTDIR)$(PREFIX)/include/dnr.h"
	sed -e "s|@PREFIX@|$(PREFIX)|" -e "s|@VERSION@|$$(cat VERSION)|" dnr.pc.in >"$(DESTDIR)$(PREFIX)/lib/pkgconfig/dnr.pc"
	chmod 644 "$(DESTDIR)$(PREFIX)/lib/pkgconfig/dnr.pc"
	install -m 755 build/dnr "$(DESTDIR)$(PREFIX)/bin/dnr"
	install -m 755 host/capture/dnr-capture "$(DESTDIR)$(PREFIX)/bin/dnr-capture"

uninstall:
	rm -f "$(DESTDIR)$(PREFIX)/lib/libdnr.a" "$(DESTDIR)$(PREFIX)/include/dnr.h"
	rm -f "$(DESTDIR)$(PREFIX)/lib/pkgconfig/dnr.pc" "$(DESTDIR)$(PREFIX)/bin/dnr" "$(DESTDIR)$(PREFIX)/bin/dnr-capture"

fuzz: $(LIBRARY)
	sh fuzz/run.sh $(SECONDS)

replay: $(LIBRARY)
	@sh fuzz/replay.sh

corpus:
	python3 fuzz/corpus.py examples fuzz/corpus

clean:
	rm -rf target build host/target
