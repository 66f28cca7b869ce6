# The library for services. `make` proves and builds it; `make install DESTDIR=DIR PREFIX=/usr` installs it.
PREFIX = /usr/local
LIBDIR = lib
# The folder of the built library.
LIBRARY = crates/zsched_c/out

.PHONY: library install

library:
	build/make-library --out '$(LIBRARY)'

install:
	build/install-library --library '$(LIBRARY)' --destdir '$(DESTDIR)' --prefix '$(PREFIX)' --libdir '$(LIBDIR)'
