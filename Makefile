# Builds the library and hands it to its users. What computes is the proved archive alone; nothing here is proved.
#
#   make                         build/libcuzhaveli.a, proved and compiled by the Rattle kit; build/libcuzhaveli_plans.a, planner
#                                and judge alone, for programs that move no bytes of a stripe; build/libcuzhaveli_fast.a and
#                                build/libcuzhaveli.so.1, the same proved source compiled for x86-64 and for x86-64-v3 (AVX2), of
#                                which the processor's is taken at load (docs/TRUST.md); with cargo build/cuzhaveli, the command
#   make LIB=FILE                the same from a ready libcuzhaveli.a with the other archives beside it, without the kit; where
#                                libcuzhaveli_fast.a is not there, shared library and command have the plain compilation alone.
#                                It is remembered until `make clean`, or until `make LIB=` builds by the kit
#   make build/plan              document 01's plan program, by the kit: printf 'p,lost\n5,1\n' | build/plan
#   make demo                    shows the command at work on a film that it makes: encodes, loses disks, rebuilds, plays
#   make examples                builds and runs examples/ from a scratch install, and compares their output
#   make selftest                the Python package's own test of the shared library
#   make manual                  writes docs/man/*.1 and rust/command/completion/ anew, from the command's table
#   make install PREFIX= LIBDIR= DESTDIR=   header, archives, shared library, cuzhaveli.pc, command, manual and completion (PREFIX is
#                                /usr/local if not given, LIBDIR PREFIX/lib)
#   make uninstall PREFIX= LIBDIR= DESTDIR=
#   make dist                    build/cuzhaveli-VERSION-x86_64-linux.tar.gz, of the archives that .ci/run built and tested
#   make release-check           dist, packages, and what users do with them: tests/release/run
#   make conformance IMPL=FILE   compares your code, a .c, .a or .so that offers functions of conformance/yours.h, with the library;
#                                IMPL_CFLAGS= IMPL_LIBS= what it needs, OPTIONS= options of the runner (docs/TEST-YOURS.md); that
#                                kit and the vectors are installed in share/cuzhaveli
#   make ceph-test CEPH_DIR=     tests the plugin for Ceph, as root, in a Debian 13 chroot in CEPH_DIR, build/ceph if not given
#                                (docs/CEPH.md); outside the gate
#   make check                   all tests that need no proof, over what is built (tests/run); with LIB= without the kit
#   make check-all               the gate, .ci/run: all is proved and tested from nothing
#   make clean                   removes build/

VERSION = 1.0.0
PREFIX = /usr/local
LIBDIR = $(PREFIX)/lib
DESTDIR =
LIB =
CFLAGS = -O2
PKG_CONFIG = pkg-config
comma = ,

# The ready archive that is taken: what LIB= names, else what an earlier make was given, which build/origin has. Archives that
# are in build/ already are taken as they are if LIB= names them, as the gate does.
named := $(if $(filter command%,$(origin LIB)),$(abspath $(LIB)),$(file <build/origin))
standing := $(if $(named),$(filter $(realpath build/libcuzhaveli.a),$(realpath $(named))))
ready := $(if $(standing),,$(named))

fast_archive = build/libcuzhaveli_fast.a
fast := $(if $(ready),$(patsubst $(dir $(ready))%,build/%,$(wildcard $(dir $(ready))libcuzhaveli_fast.a)),$(if $(standing),$(wildcard $(fast_archive)),$(fast_archive)))
archives = build/libcuzhaveli.a build/libcuzhaveli_plans.a $(fast)
shared = build/libcuzhaveli.so.1
tool = $(if $(shell command -v cargo),build/cuzhaveli)
has = $(if $(tool),$(shell $(PKG_CONFIG) --exists $(1) 2>/dev/null && echo $(2)))
servers = $(call has,fuse3,build/cuzhaveli-fuse) $(call has,nbdkit,build/nbdkit-cuzhaveli-plugin.so)
scratch = $(CURDIR)/build/scratch
proved = $(shell find crates -name out -prune -o \( -name '*.rt' -o -name '*.antt' \) -print)
warnings = -std=c99 -Wall -Wextra -pedantic -Werror
dist = cuzhaveli-$(VERSION)-x86_64-linux

completion = rust/command/completion
share = $(DESTDIR)$(PREFIX)/share
libdir = $(DESTDIR)$(LIBDIR)
# The folder is not to be seen in what is compiled.
cargo = CUZHAVELI_LIB_DIR="$(CURDIR)/build" CARGO_TARGET_DIR="$(CURDIR)/build/tool" RUSTFLAGS="$$RUSTFLAGS --remap-path-prefix=$(CURDIR)=cuzhaveli" cargo build -q --release --offline

.PHONY: all demo manual examples selftest install uninstall dist release-check clean FORCE
.DELETE_ON_ERROR:

all: $(archives) $(shared) $(tool) $(servers)
	@[ -n "$(tool)" ] || echo "make: no cargo on PATH, so the command cuzhaveli is not built; the libraries are"
	@[ -n "$(fast)" ] || echo "make: no libcuzhaveli_fast.a beside $(named), so $(shared)$(if $(tool), and $(tool)) have the plain compilation alone"

ifneq ($(ready),)
# What differs from the ready archives is copied. Where the fast one comes or goes, the plain one is taken anew: its date is
# what cargo looks at.
same := $(foreach one,$(archives),$(if $(shell cmp -s "$(dir $(ready))$(notdir $(one))" $(one) && echo same),$(one)))
$(filter-out $(same),$(archives)) $(if $(filter-out x$(fast),x$(wildcard $(fast_archive))),build/libcuzhaveli.a): FORCE
build/lib%.a: | build/origin
	@[ -f "$(dir $(ready))lib$*.a" ] || { echo "make: the ready archive is $(ready), and there is no $(dir $(ready))lib$*.a; give the path of libcuzhaveli.a, with libcuzhaveli_plans.a beside it: make LIB=FILE, or LIB= for the kit" >&2; exit 1; }
	@$(if $(fast),,rm -f $(fast_archive))
	@cp "$(dir $(ready))lib$*.a" $@
build/origin: $(if $(filter $(ready),$(file <build/origin)),,FORCE)
	@mkdir -p build
	@echo "$(ready)" >$@
else ifeq ($(standing),)
# What LIB= brought is not built here: with build/origin all is built anew.
proofs = the library is proved before it is compiled, crate by crate: long the first time, then only what changed
build/libcuzhaveli.a: $(if $(wildcard build/origin),FORCE) scripts/archive.sh crates.txt $(proved)
	@command -v rt >/dev/null || { echo "make: the library is built by the Rattle kit, whose command rt is not on PATH; install the kit, or take a ready archive: make LIB=FILE" >&2; exit 1; }
	@mkdir -p build
	@WHY="$(proofs)" scripts/progress.sh build/archive.log scripts/archive.sh build
	@rm -f build/origin
	@echo "make: wrote $@"
build/libcuzhaveli_plans.a: build/libcuzhaveli.a
	@[ -f $@ ] || cp build/members/cuzhaveli_plans.a $@
	@echo "make: wrote $@"
build/x86-64-v3/libcuzhaveli.a: build/libcuzhaveli.a
	@WHY="the calls once more, for processors with AVX2 (x86-64-v3): some minutes" scripts/progress.sh build/x86-64-v3.log scripts/archive.sh build/x86-64-v3 x86-64-v3
build/libcuzhaveli_fast.a: build/libcuzhaveli.a build/x86-64-v3/libcuzhaveli.a scripts/dispatch/fast.sh scripts/dispatch/pick.c include/cuzhaveli.h
	@scripts/dispatch/fast.sh build/libcuzhaveli.a build/x86-64-v3/libcuzhaveli.a build
	@echo "make: wrote $@"
endif

$(shared): $(or $(fast),build/libcuzhaveli.a) scripts/dispatch/shared.sh include/cuzhaveli.h
	@scripts/dispatch/shared.sh $< build
	@echo "make: wrote $@"

build/plan: crates.txt $(proved)
	@command -v rt >/dev/null || { echo "make: the plan program is proved and compiled by the Rattle kit, whose command rt is not on PATH" >&2; exit 1; }
	@mkdir -p build
	@(cd crates/plan && rt run --cpu=x86-64 <stdin) >build/plan.log 2>&1 || { tail -n 20 build/plan.log; echo "make: the plan program was not built; build/plan.log has all that rt printed" >&2; exit 1; }
	@cp crates/plan/out/plan $@
	@echo "make: wrote $@"

build/cuzhaveli: build/libcuzhaveli.a $(fast) $(shell find rust -name target -prune -o -name '*.rs' -print -o -name '*.man' -print -o -name 'Cargo.*' -print)
	@command -v cargo >/dev/null || { echo "make: the command cuzhaveli is built by cargo, which is not on PATH; install Rust 1.89 or newer" >&2; exit 1; }
	@[ -f $@ ] || echo "make: compiling the command: a minute"
	@$(cargo) --manifest-path rust/command/Cargo.toml
	@cp build/tool/release/cuzhaveli $@
	@echo "make: wrote $@"

demo: build/cuzhaveli
	@rm -rf build/demo
	@examples/demo build/cuzhaveli build/demo

manual: build/cuzhaveli
	@mkdir -p $(completion)
	@rm -f docs/man/cuzhaveli.1 docs/man/cuzhaveli-*.1
	@build/cuzhaveli help --man >docs/man/cuzhaveli.1
	@for name in $$(build/cuzhaveli help | sed -n 's/^  cuzhaveli \([a-z]*\) .*/\1/p'); do build/cuzhaveli help --man $$name >docs/man/cuzhaveli-$$name.1 || exit 1; done
	@build/cuzhaveli help --completion bash >$(completion)/cuzhaveli.bash
	@build/cuzhaveli help --completion zsh >$(completion)/_cuzhaveli
	@build/cuzhaveli help --completion fish >$(completion)/cuzhaveli.fish
	@echo "make: wrote docs/man/*.1 and $(completion)/"

install: $(archives) $(shared) $(tool) $(servers)
	@install -d "$(DESTDIR)$(PREFIX)/include" "$(libdir)/pkgconfig"
	@install -m 644 include/cuzhaveli.h "$(DESTDIR)$(PREFIX)/include/"
	@install -m 644 $(archives) $(shared) "$(libdir)/"
	@ln -sf libcuzhaveli.so.1 "$(libdir)/libcuzhaveli.so"
ifneq ($(tool),)
	@install -d "$(DESTDIR)$(PREFIX)/bin" "$(share)/man/man1" "$(share)/bash-completion/completions" "$(share)/zsh/site-functions" "$(share)/fish/vendor_completions.d"
	@install -m 755 $(tool) "$(DESTDIR)$(PREFIX)/bin/"
	@install -m 644 docs/man/*.1 "$(share)/man/man1/"
	@install -m 644 $(completion)/cuzhaveli.bash "$(share)/bash-completion/completions/cuzhaveli"
	@install -m 644 $(completion)/_cuzhaveli "$(share)/zsh/site-functions/"
	@install -m 644 $(completion)/cuzhaveli.fish "$(share)/fish/vendor_completions.d/"
endif
	@sed 's|@PREFIX@|$(PREFIX)|; s|@LIBDIR@|$(patsubst $(PREFIX)/%,$${prefix}/%,$(LIBDIR))|; s|@VERSION@|$(VERSION)|' scripts/cuzhaveli.pc.in >"$(libdir)/pkgconfig/cuzhaveli.pc"
	@echo "make: installed header, archives, shared library, cuzhaveli.pc$(if $(tool),$(comma) command$(comma) manual and completion) under $(DESTDIR)$(PREFIX)"

uninstall:
	rm -f "$(DESTDIR)$(PREFIX)/include/cuzhaveli.h" "$(libdir)/libcuzhaveli.a" "$(libdir)/libcuzhaveli_plans.a" "$(libdir)/libcuzhaveli_fast.a" "$(libdir)/libcuzhaveli.so" "$(libdir)/libcuzhaveli.so.1" "$(libdir)/pkgconfig/cuzhaveli.pc" "$(DESTDIR)$(PREFIX)/bin/cuzhaveli" "$(share)/man/man1/cuzhaveli.1" "$(share)/man/man1/cuzhaveli-"*.1 "$(share)/bash-completion/completions/cuzhaveli" "$(share)/zsh/site-functions/_cuzhaveli" "$(share)/fish/vendor_completions.d/cuzhaveli.fish"

examples: $(archives) $(shared)
	@rm -rf "$(scratch)" && mkdir -p "$(scratch)"
	@$(MAKE) -s install PREFIX="$(scratch)/usr" LIBDIR="$(scratch)/usr/lib" DESTDIR=
	@CC="$(CC)" CFLAGS="$(CFLAGS) $(warnings)" PKG_CONFIG="$(PKG_CONFIG)" examples/run "$(scratch)"

selftest: $(shared)
	@CUZHAVELI_LIBRARY="$(CURDIR)/$(shared)" PYTHONPATH="$(CURDIR)/python" PYTHONDONTWRITEBYTECODE=1 python3 -m cuzhaveli.selftest

# The archive, the command and what belongs to them, with the sums, the kit's identity and the gate's log. The same files give
# the same bytes, whatever the folder, the day and the user's umask.
dist: $(archives) $(shared) build/cuzhaveli
	@[ -f build/gate.log ] || { echo "make: no build/gate.log, which goes into the archive; run .ci/run first" >&2; exit 1; }
	@for one in $(archives) $(shared) build/cuzhaveli; do grep -q "$$(sha256sum <$$one | cut -d ' ' -f 1)" build/gate.log || { echo "make: $$one is not the one that build/gate.log names; run .ci/run again" >&2; exit 1; }; done
	@command -v rt >/dev/null || { echo "make: the kit's identity goes into the archive, and its command rt is not on PATH" >&2; exit 1; }
	@rm -rf build/$(dist) && mkdir -p build/$(dist)
	@$(MAKE) -s install PREFIX=/usr LIBDIR=/usr/lib DESTDIR="$(CURDIR)/build/$(dist)"
	@mv build/$(dist)/usr/* build/$(dist)/ && rmdir build/$(dist)/usr
	@sed 's|@PREFIX@|$${pcfiledir}/../..|; s|@LIBDIR@|$${prefix}/lib|; s|@VERSION@|$(VERSION)|' scripts/cuzhaveli.pc.in >build/$(dist)/lib/pkgconfig/cuzhaveli.pc
	@cp -r README.md LICENSE CHANGELOG.md SECURITY.md CONTRIBUTING.md docs examples rust python build/$(dist)/
	@ln -s share/cuzhaveli/conformance share/cuzhaveli/vectors build/$(dist)/
	@rm -rf build/$(dist)/rust/*/target && find build/$(dist) -name __pycache__ -exec rm -rf {} +
	@rt version >build/$(dist)/KIT && cp build/gate.log build/$(dist)/
	@cd build/$(dist) && find . -type f ! -name SHA256SUMS | LC_ALL=C sort | xargs sha256sum >SHA256SUMS
	@cd build && tar --sort=name --mtime=@0 --owner=0 --group=0 --numeric-owner --mode=u+rw,go=rX --format=gnu -cf - $(dist) | gzip -n >$(dist).tar.gz
	@sha256sum build/$(dist).tar.gz

release-check: all
	@tests/release/run build

# The conformance kit: a user's code compared with the library.
IMPL =
IMPL_CFLAGS =
IMPL_LIBS =
OPTIONS =
kit = $(share)/cuzhaveli
.PHONY: conformance install-kit uninstall-kit

conformance: build/libcuzhaveli.a
	@[ -n "$(IMPL)" ] || { echo "make: say which code: make conformance IMPL=mine.c (or mine.a, mine.so); docs/TEST-YOURS.md describes how" >&2; exit 2; }
	@CC="$(CC)" CFLAGS="$(CFLAGS)" IMPL_CFLAGS="$(IMPL_CFLAGS)" IMPL_LIBS="$(IMPL_LIBS)" conformance/run $(IMPL) $(OPTIONS)

install: install-kit
install-kit:
	@install -d "$(kit)/conformance"
	@cp -r $(filter-out conformance/vectors,$(wildcard conformance/*)) "$(kit)/conformance/"
	@cp -r conformance/vectors "$(kit)/"

uninstall: uninstall-kit
uninstall-kit:
	rm -rf "$(kit)/conformance" "$(kit)/vectors"

# The servers of films in place: the helper of `cuzhaveli mount` where libfuse3 is there, the plugin where nbdkit is.
NBDKIT_PLUGINS = $(LIBDIR)/nbdkit/plugins
.PHONY: install-servers uninstall-servers

build/libcuzhaveli_play.a: build/libcuzhaveli.a $(fast) $(shell find rust/cuzhaveli rust/images rust/play -name '*.rs' -o -name Cargo.toml)
	@$(cargo) --manifest-path rust/play/Cargo.toml
	@cp build/tool/release/libcuzhaveli_play.a $@
build/cuzhaveli-fuse: rust/play/servers/cuzhaveli-fuse.c build/libcuzhaveli_play.a rust/play/cuzhaveli_play.h
	@$(CC) $(CFLAGS) -std=gnu11 -Wall -Wextra -Werror -Wl,--gc-sections,-S -Irust/play $$($(PKG_CONFIG) --cflags fuse3) -o $@ $< build/libcuzhaveli_play.a $$($(PKG_CONFIG) --libs fuse3) -lpthread -ldl -lm
	@echo "make: wrote $@"
build/nbdkit-cuzhaveli-plugin.so: rust/play/servers/nbdkit-cuzhaveli-plugin.c build/libcuzhaveli_play.a rust/play/cuzhaveli_play.h
	@$(CC) $(CFLAGS) -std=gnu11 -Wall -Wextra -Werror -fPIC -shared -Wl,--exclude-libs,ALL,--gc-sections,-S -Irust/play $$($(PKG_CONFIG) --cflags nbdkit) -o $@ $< build/libcuzhaveli_play.a -lpthread -ldl -lm
	@echo "make: wrote $@"

install: install-servers
install-servers: $(servers)
	@for one in $(filter %-fuse,$(servers)); do install -D -m 755 $$one "$(DESTDIR)$(PREFIX)/bin/$${one##*/}" || exit 1; done
	@for one in $(filter %.so,$(servers)); do install -D -m 755 $$one "$(DESTDIR)$(NBDKIT_PLUGINS)/$${one##*/}" || exit 1; done

uninstall: uninstall-servers
uninstall-servers:
	rm -f "$(DESTDIR)$(PREFIX)/bin/cuzhaveli-fuse" "$(DESTDIR)$(NBDKIT_PLUGINS)/nbdkit-cuzhaveli-plugin.so"

# The plugin for Ceph, in a chroot that is made once.
CEPH_DIR = build/ceph
.PHONY: ceph-test
ceph-test: $(or $(fast),build/libcuzhaveli.a)
	@ceph/test/run $(CEPH_DIR) $<

.PHONY: check check-all
check: all $(if $(shell command -v rt),build/plan)
	@tests/run build

# rt ci refuses links, and there are some in what was built.
check-all: clean
	@.ci/run

clean:
	rm -rf build
