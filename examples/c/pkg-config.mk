# The examples over the installed library (docs/INSTALL.md), built in the folder that make is called in:
#
# make -f examples/c/pkg-config.mk                    with libuapubsub.so
# make -f examples/c/pkg-config.mk LINKS=static       with libuapubsub.a
HERE := $(dir $(lastword $(MAKEFILE_LIST)))
CFLAGS = -std=c11 -O2 -Wall -Wextra -Wpedantic
CXXFLAGS = -std=c++20 -O2 -Wall -Wextra -Wpedantic
PKG_CONFIG = pkg-config
LINKS = shared
HEADER := $(shell $(PKG_CONFIG) --cflags uapubsub)
LIBRARY_shared = $(shell $(PKG_CONFIG) --libs uapubsub)
LIBRARY_static = $(shell $(PKG_CONFIG) --libs-only-L uapubsub) -l:libuapubsub.a

all: device listen

device: $(HERE)device.c
	$(CC) $(CFLAGS) $(HEADER) -o $@ $< $(LIBRARY_$(LINKS))

listen: $(HERE)listen.cpp
	$(CXX) $(CXXFLAGS) $(HEADER) -o $@ $< $(LIBRARY_$(LINKS))

.PHONY: all
