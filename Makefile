# make builds the static library for C; make install puts it, its headers and a pkg-config file under PREFIX,
# with DESTDIR before it.
PREFIX ?= /usr/local
DESTDIR ?=
LIBRARY ?= target/libbilzhaan.a

all: $(LIBRARY)

target/libbilzhaan.a:
	tools/staticlib.sh

install: $(LIBRARY)
	PREFIX='$(PREFIX)' DESTDIR='$(DESTDIR)' LIBRARY='$(LIBRARY)' tools/install.sh

.PHONY: all install
