# make          proves and builds the library for C, brinewatch and the tool `agreement`
# make test     the gate: every proof, must-fail edit and test
# make install  header, library, pkg-config file and the two programs under PREFIX
PREFIX ?= /usr/local
DESTDIR ?=
version = 0.1.0

library = target/staticlib/libgivuntha.a
programs = crates/brinewatch/out/brinewatch target/cargo/release/agreement
to = $(DESTDIR)$(PREFIX)

.PHONY: all test install
all:
	cd crates/brinewatch && rt run <stdin >/dev/null
	bindings/staticlib
	CARGO_TARGET_DIR=$(CURDIR)/target/cargo cargo build --offline --release --manifest-path tools/Cargo.toml

test:
	.ci/run

install:
	@test -f $(library) || { echo "there is no $(library): run make first" >&2; exit 1; }
	install -d $(to)/bin $(to)/include $(to)/lib/pkgconfig
	install -m 755 $(programs) $(to)/bin
	install -m 644 include/givuntha.h $(to)/include
	install -m 644 $(library) $(to)/lib
	sed -e 's|@PREFIX@|$(PREFIX)|' -e 's|@VERSION@|$(version)|' include/givuntha.pc.in > $(to)/lib/pkgconfig/givuntha.pc
