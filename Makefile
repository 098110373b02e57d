# Needs the Rattle toolchain (its command rt, and the Python that it runs on) and nothing else. README.md says where that comes from, and
# docs/LIBRARY.md how many minutes, how much disk and how much memory a build takes.
PREFIX ?= /usr/local
PROGRAM = crates/ipxr/out/ipxr
MINUTES ?= 60
SOAK ?= 10

# All prove and build in crates/ and build/, so one begins where another has ended, whatever -j says. What they run is no part of this make,
# and isn't told of its words: a make that a test runs, or a compiler that looks for other jobs, would go by them.
.NOTPARALLEL:
unexport MAKEFLAGS MFLAGS

.PHONY: run try show build embed aarch64 arm windows portable wasm page web library packages gateway test edits fuzz soak bench dist release-test install

# What builds from the sources, or proves them, says first if there is no toolchain.
.PHONY: toolchain
run try show build embed aarch64 arm windows portable wasm page web library packages gateway test edits fuzz soak bench release-test install: | toolchain
toolchain:
	@command -v rt >/dev/null || { echo "the toolchain's command rt is missing: README.md says where it comes from" >&2; exit 1; }

# Proves what the program is made of and builds it, then plays the worked script and prints what the router sent and learned.
run: build
	@$(PROGRAM) replay crates/ipxr/stdin

# Plays the worked script by the toolchain's quick run: about a minute, and nothing is proved.
try:
	@cd crates/ipxr && rt try -- replay <stdin

# Proves ipx_show, the first program to read, and shows nine packets with it.
show:
	@tools/show

# Proves what the program is made of and builds it.
build:
	@tools/build

# Proves the library for C, and puts build/libipxr.a and its header there, for any x86-64, or for later ones as by CPU=x86-64-v3; with
# tables of other sizes as by PORTS=8 ROUTES=256 SERVICES=128 CLIENTS=64 LINKS=4 STATIONS=100, or another lifetime as by LIFETIME=240. Needs a
# C compiler; docs/LIBIPXR.md.
embed:
	@tools/embed

# The program, the library for C and the gateway for 64-bit Linux on ARM, and for Windows: build/aarch64, build/windows. Needs a compiler
# for it; docs/EMBED.md. For 32-bit Linux on ARM the program and the gateway: build/arm.
aarch64 arm windows:
	@tools/platforms $@

# The program as one file of C for any compiler and system, build/portable/ipxr.c; docs/RELEASES.md.
portable:
	@tools/portable

# The program and the library for C as WebAssembly: build/wasm.
wasm:
	@tools/wasm

# The page with the whole program in it, build/ipxr.html, for any browser; docs/PAGE.md.
page:
	@tools/wasm
	@tools/page

# The router for JavaScript, in pages and in Node: build/web; docs/EMBED.md.
web:
	@tools/web

# The library for C as one file for any compiler and system, build/library/libipxr.c, with the headers and a server; docs/EMBED.md.
library:
	@tools/library

# The library as packages for other languages: build/packages; docs/EMBED.md.
packages:
	@tools/library
	@tools/packages

# Builds build/ipxr-gateway, which joins DOSBox' networks, cards of emulators and Ethernet. Needs a C compiler; docs/GATEWAY.md.
gateway:
	@tools/gateway

# The gate, then every example and transcript. The last line is 'N passed, M failed'.
test:
	@dev/test

# Tries every must-fail edit, or with CRATE=NAME those of one crate. The last line is 'N refused, M not refused'.
edits:
	@dev/edits $(CRATE)

# Plays made-up bytes to the built program and to the library for C, for MINUTES in all. With afl++ where it is installed; needs a C
# compiler. docs/PROVED.md tells what came. The last line is 'N inputs, M crashes'.
fuzz: build embed
	@dev/fuzz $(MINUTES)

# Floods the gateway, under the sanitizers, for SOAK minutes: each limit, then everything at once, while players play, who may lose 2 % at
# most. Needs Linux, a C compiler, Python and the right to make networks. The last line is 'N datagrams, M faults';
# docs/authors/GATEWAY-TESTS.md.
soak:
	@tools/gateway soak $(SOAK)

# Proves, builds and runs the measurements, some beside plain programs, for which it needs a C compiler; docs/SPEED.md tells what they gave.
bench:
	@dev/bench

# Puts what the gate proved and built into dist/, and what is compiled from it for other systems: archives and Debian's packages, with their
# sums; docs/authors/RELEASING.md. DRAFT=1 makes a draft where make test hasn't passed on this commit.
dist: | $(if $(DRAFT),,toolchain)
	@$(if $(DRAFT),,release/dist --check)
	@$(if $(DRAFT),,tools/lib/takes.py dist "building for other systems what the gate proved, then packing all")
	@$(if $(DRAFT),,tools/gateway)
	@$(if $(DRAFT),,tools/platforms all)
	@release/dist $(if $(DRAFT),--draft)
	@echo "dist/ has the archives, the packages and SHA256SUMS" >&2

# What make test leaves out since it takes long: the programs for other systems, played there; then two copies that give one sum, lintian,
# and the packages and archives in fresh roots.
release-test:
	@tools/platforms test-aarch64
	@tools/platforms test-windows
	@tools/platforms test-wasm
	@tools/portable test
	@tools/library test
	@tools/library wrong
	@tools/packages test
	@tools/gateway test-sources
	@tools/gateway test-posix
	@tools/gateway test-arm
	@tools/page test
	@release/try root

# Puts the proved program into PREFIX/bin with its manual pages and completions; the library for C with its header, its pkg-config file
# and its page; and the gateway into PREFIX/sbin with its page, an example of a configuration and a unit for systemd. All of it
# below DESTDIR, if that is given.
install: build gateway
	@tools/install "$(PREFIX)" "$(DESTDIR)"
