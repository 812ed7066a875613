# make                 builds the library and the program, once
# make install         installs what is built; builds it first where that has not been done. make uninstall takes it away
# make check           the gate: proves everything from nothing, and compares
# make bench           the benchmark
# make demo            the program on the image that ships with it
#
# PREFIX   where make install puts the files: /usr/local
# DESTDIR  a folder that stands for / while they are copied
# CPU      x86-64 (every such processor), x86-64-v2, x86-64-v3, x86-64-v4 or aarch64: library and program are proved and compiled for it;
#          without it the machine's own, x86-64 or aarch64
PREFIX ?= /usr/local
export PREFIX DESTDIR CPU

.PHONY: all install uninstall check bench demo
.NOTPARALLEL:

all:
	install/build "$$CPU"

install:
	install/place

uninstall:
	install/place remove

check:
	.ci/run

bench:
	bench/run.sh

demo:
	example/demo.sh
