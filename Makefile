# Builds, installs and removes camr. It is read by GNU make and by BSD make. The work is done by the scripts that it calls.
#
#     make                            proves and builds the two programs and the C library, into .camr-build
#     make install [PREFIX=] [DESTDIR=]   installs what was built, and builds nothing
#     make uninstall [PREFIX=] [DESTDIR=] removes what `make install` put there, and nothing else
#     make check                      the test: proves what no earlier run here proved, and runs all tests
#     make clean                      removes .camr-build
#
# PREFIX is an absolute path, and may have blanks. DESTDIR is the folder that stands for / while a package is made.

PREFIX = /usr/local
DESTDIR =

# What is installed. Whoever has built it elsewhere names the files here.
CAMR = .camr-build/camr
CAMR_INSPECT = .camr-build/camr_inspect
LIBRARY = .camr-build/library/libcamr_c.a

all: programs library
	@echo 'make: the programs and the library stand in .camr-build'

# Each is built if it is not there or a source is newer, and reports on standard error how far it is.
programs:
	@./camr --version >/dev/null
	@./camr help explain >/dev/null

library:
	@tools/build-c-library .camr-build/library

install:
	@tools/install '$(PREFIX)' '$(DESTDIR)' '$(CAMR)' '$(CAMR_INSPECT)' '$(LIBRARY)'

uninstall:
	@tools/uninstall '$(PREFIX)' '$(DESTDIR)'

check:
	@command -v rt >/dev/null || { echo 'make: the Rattle toolchain is missing, whose command `rt` has to be on the path' >&2; exit 1; }
	@rt ci </dev/null

clean:
	rm -rf .camr-build

.NOTPARALLEL:
.PHONY: all programs library install uninstall check clean
