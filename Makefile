# make          prove and build the programs, side by side on all processors
# make test     run everything that is run, on the programs at hand; needs no toolchain
# make gate     everything that must hold: the proofs from nothing, the released programs, and make test on what was proved
# make wrong    try the wrong bodies that the gate doesn't try, and with CRATE=NAME those of one crate
# make check-one CRATE=NAME FN=FUNCTION  prove one function, over the sources of the crates below
# make release  release what was built
# make install PREFIX=.., make uninstall PREFIX=..
# make wheel    a package for pip in build/, with the released programs inside
# make deb      a Debian package in build/, the same way
# make lint     mypy, flake8 and shellcheck, where they are there
# make reference  write the projects of reference/values.csv into build/reference, and check their digests
# make reference-values  compute the rows of that table anew that are of another psprove, and its page; make reference-page: that
# make bench    measure the program, and with OTHER=PROGRAM that program in turn with it
PREFIX ?= /usr/local
JOBS ?= $(shell nproc)
VERSION := $(shell sed -n 's/^__version__ = "\(.*\)".*/\1/p' python/psmax/__init__.py)
SOURCES := crates.txt HANDLES $(shell find crates -path '*/out' -prune -o \( -name '*.rt' -o -name '*.antt' \) -print)
AT_HAND := $(shell if [ build/psmax -nt release/psmax ]; then echo build; else echo release; fi)
export PREFIX DESTDIR AT_HAND

all: build/psmax

# The crates are proved side by side first; `rt run` then builds the programs over that, and leaves each in its crate's folder.
build/psmax: $(SOURCES)
	@command -v rt > /dev/null || { echo "make needs the Rattle toolchain: its command rt is not on the PATH"; exit 1; }
	rt all check --jobs $(JOBS)
	cd crates/psmax && rt run --jobs $(JOBS) -- --help < /dev/null > /dev/null
	cd crates/psprove && rt run --jobs $(JOBS) -- --help < /dev/null > /dev/null
	cd crates/book_events && rt run --jobs $(JOBS) < stdin > /dev/null
	mkdir -p build
	cp crates/psprove/out/psprove crates/book_events/out/book_events build
	cp crates/psmax/out/psmax build/psmax.new
	mv build/psmax.new build/psmax

test prove gate:
	python3 tests/gate.py $@

wrong:
	python3 tests/wrong.py --crate "$(CRATE)"

check-one:
	python3 tests/check_one.py crates/$(CRATE) $(FN)

release: build/psmax
	python3 tests/gate.py release

bench: build/psmax
	python3 bench/speed.py build/psmax $(OTHER)
	python3 bench/counts.py build/psmax $(OTHER)
	python3 bench/worker_speed.py build/psmax
	python3 bench/record_speed.py build/psmax
	python3 bench/book.py build/book_events

reference:
	python3 -m reference.make

reference-values:
	python3 -m reference.compute --jobs $(JOBS)

reference-page:
	python3 -m reference.page

# The programs at hand are installed as they are: that needs no toolchain.
install uninstall:
	@python3 python/installing.py $@

wheel:
	python3 python/packing.py build

deb:
	rm -rf build/deb
	$(MAKE) -s install DESTDIR=build/deb PREFIX=/usr AT_HAND=release
	rm build/deb/usr/share/psmax/installed
	umask 022 && install -d build/deb/DEBIAN build/deb/usr/lib build/deb/usr/lib/python3 build/deb/usr/lib/python3/dist-packages
	ln -s ../../../share/psmax/psmax build/deb/usr/lib/python3/dist-packages/psmax
	umask 022 && sed 's/VERSION/$(VERSION)/' python/debian-control > build/deb/DEBIAN/control
	dpkg-deb --root-owner-group --build build/deb build/psmax_$(VERSION)_amd64.deb

lint:
	python3 tests/lint.py

clean:
	rm -rf build crates/*/out

.PHONY: all test prove gate wrong check-one release bench reference reference-values reference-page install uninstall wheel deb lint clean
