# Puts the built program where commands belong, with its manual page and its completion:
#   make install [PREFIX=/usr/local] [DESTDIR=]      make uninstall [PREFIX=/usr/local] [DESTDIR=]
PREFIX ?= /usr/local
DESTDIR ?=
export PREFIX DESTDIR

all:
	./bcsg --build

install:
	command/install

uninstall:
	command/install --remove

.PHONY: all install uninstall
