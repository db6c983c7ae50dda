# make            builds target/libbassoonsun.a, the library for C: include/bassoonsun.h declares it
# make shared     makes target/libbassoonsun.so of it
# make install    puts both, the header and bassoonsun.pc under PREFIX, in DESTDIR where that is given
# make uninstall  takes them away again
PREFIX = /usr/local
DESTDIR =

version := $(shell sed -n 's/^\#define BASSOONSUN_VERSION "\(.*\)"$$/\1/p' include/bassoonsun.h)
# The name that programs ask the loader for: its version without the last number, with which none need be compiled anew.
soname := libbassoonsun.so.$(basename $(version))
include_dir = $(DESTDIR)$(PREFIX)/include
lib_dir = $(DESTDIR)$(PREFIX)/lib
installed = $(include_dir)/bassoonsun.h $(lib_dir)/libbassoonsun.a $(lib_dir)/$(soname) $(lib_dir)/libbassoonsun.so \
    $(lib_dir)/pkgconfig/bassoonsun.pc

library:
	bash -c '. examples/build.bash && build_library'

shared: target/libbassoonsun.so

# What is there and newer than its sources is not made again: the one who installs need not have rt. The folders out
# hold what rt makes.
target/libbassoonsun.a: $(shell find crates crates.txt -name out -prune -o -type f -print)
	$(MAKE) library

target/libbassoonsun.so: target/libbassoonsun.a include/bassoonsun.h
	bash -c '. examples/build.bash && build_shared $(soname)'

install: target/libbassoonsun.so
	install -d $(include_dir) $(lib_dir)/pkgconfig
	install -m 644 include/bassoonsun.h $(include_dir)
	install -m 644 target/libbassoonsun.a $(lib_dir)
	install -m 755 target/libbassoonsun.so $(lib_dir)/$(soname)
	ln -sf $(soname) $(lib_dir)/libbassoonsun.so
	sed 's|@PREFIX@|$(PREFIX)|; s|@VERSION@|$(version)|' include/bassoonsun.pc.in >$(lib_dir)/pkgconfig/bassoonsun.pc

uninstall:
	rm -f $(installed)

.PHONY: library shared install uninstall
