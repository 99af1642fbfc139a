# Builds and installs Wozgrzyt. `make` alone says what there is.
PREFIX = /usr/local
DESTDIR =
export PREFIX DESTDIR

SHELL = /bin/sh
.SHELLFLAGS = -euc
.ONESHELL:
.NOTPARALLEL:
.PHONY: help build install uninstall

PROGRAMS = target/bin/day target/bin/plan target/bin/rounds
ARCHIVE = target/staticlib/libestimator.a
SOURCES := $(shell find crates crates.txt -name out -prune -o -type f -print)

help:
	@cat <<'END'
	make build        proves and builds the three programs and the library; needs the Rattle kit, takes some minutes
	make install      installs the command, the programs, the library, the cases and the documents into PREFIX
	make uninstall    removes what was installed there, and nothing else
	PREFIX=/usr/local is where it goes. DESTDIR= is put before it, for packages.
	./test is the whole test. README.md says more.
	END

build: $(PROGRAMS) $(ARCHIVE)

# rt proves what has changed. A file that is touched is known to be made from these sources.
$(PROGRAMS): $(SOURCES)
	@tools/build $(@F)
	touch "$@"
	rt version >target/kit

$(ARCHIVE): $(SOURCES)
	@tools/build estimator
	touch "$@"
	rt version >target/kit

# The list lib/wozgrzyt/files has what an install made, below the prefix: files, and folders with a slash at the end.
# Installing again keeps the folders of the list before, and removes the files that are no longer part of it. An install
# that fails adds to the list what it made until then, so that uninstall can remove it.
install:
	@for made in $(PROGRAMS) $(ARCHIVE); do
	    [ -e "$$made" ] && [ -z "$$(find crates crates.txt -name out -prune -o -type f -newer "$$made" -print)" ] || {
	        echo "make: $$made is missing or older than its sources: run 'make build' first" >&2
	        exit 2
	    }
	done
	root=$$DESTDIR$$PREFIX
	[ -n "$$root" ] || { echo "make: PREFIX is empty" >&2; exit 2; }
	list=lib/wozgrzyt/files
	before=$$root/$$list
	new=$$(mktemp)
	trap '{ cat "$$new" >>"$$before"; } 2>/dev/null || :; rm -f "$$new"' EXIT
	[ -e "$$root" ] || echo ./ >>"$$new"
	mkdir -p -m 755 -- "$$root"
	[ ! -e "$$before" ] || sed -n '/\/$$/p' "$$before" >>"$$new"

	# folder PATH: makes the folders of a path below the prefix that are not there.
	folder() {
	    path= rest=$$1/
	    while [ -n "$$rest" ]; do
	        path=$$path$${rest%%/*}/
	        rest=$${rest#*/}
	        [ -d "$$root/$$path" ] || { mkdir -m 755 -- "$$root/$$path"; echo "$$path" >>"$$new"; }
	    done
	}
	# put MODE FILE PATH: a file below the prefix.
	put() {
	    folder "$${3%/*}"
	    install -m "$$1" -- "$$2" "$$root/$$3"
	    echo "$$3" >>"$$new"
	}
	# written PATH: a file below the prefix with what is on standard input.
	written() {
	    folder "$${1%/*}"
	    cat >"$$root/$$1"
	    chmod 644 -- "$$root/$$1"
	    echo "$$1" >>"$$new"
	}

	folder lib/wozgrzyt
	echo "$$list" >>"$$new"
	put 755 wozgrzyt bin/wozgrzyt
	for file in command/*.py; do put 644 "$$file" "lib/wozgrzyt/$$file"; done
	for program in $(PROGRAMS); do put 755 "$$program" "lib/wozgrzyt/bin/$${program##*/}"; done
	echo 'an installed copy: make uninstall removes it' | written lib/wozgrzyt/installed
	if [ target/kit -nt target/bin/day ]; then kit=$$(cat target/kit); else kit=$$(rt version 2>/dev/null || :); fi
	{ head -n 1 VERSION; echo "$$kit"; } | written lib/wozgrzyt/version

	put 644 $(ARCHIVE) lib/libwozgrzyt.a
	put 644 include/wozgrzyt.h include/wozgrzyt.h
	written lib/pkgconfig/wozgrzyt.pc <<END
	prefix=\$${pcfiledir}/../..
	includedir=\$${prefix}/include
	libdir=\$${prefix}/lib

	Name: wozgrzyt
	Description: Which buses of a power grid its phasor units observe
	Version: $$(head -n 1 VERSION)
	Cflags: -I\$${includedir}
	Libs: -L\$${libdir} -lwozgrzyt
	END

	put 644 docs/wozgrzyt.1 share/man/man1/wozgrzyt.1
	put 644 docs/wozgrzyt.3 share/man/man3/wozgrzyt.3
	for call in observed unconfirmed fewest replay number place has; do
	    echo '.so man3/wozgrzyt.3' | written "share/man/man3/wz_$$call.3"
	done
	for file in cases/*; do put 644 "$$file" "share/wozgrzyt/$$file"; done
	put 644 README.md share/doc/wozgrzyt/README.md
	for file in docs/*.[!13]* examples/*; do put 644 "$$file" "share/doc/wozgrzyt/$$file"; done

	[ ! -e "$$before" ] || while IFS= read -r path; do
	    case $$path in
	        */) ;;
	        *) grep -qxF -- "$$path" "$$new" || rm -f -- "$$root/$$path" ;;
	    esac
	done <"$$before"
	install -m 644 -- "$$new" "$$before"
	trap 'rm -f "$$new"' EXIT
	echo "wozgrzyt is installed in $$root"

uninstall:
	@root=$$DESTDIR$$PREFIX
	list=$$root/lib/wozgrzyt/files
	[ -f "$$list" ] || { echo "make: no wozgrzyt is installed in $$root" >&2; exit 2; }
	gone=$$(mktemp)
	trap 'rm -f "$$gone"' EXIT
	cp -- "$$list" "$$gone"
	sed '/\/$$/d' "$$gone" | while IFS= read -r path; do rm -f -- "$$root/$$path"; done
	sed -n '/\/$$/p' "$$gone" | LC_ALL=C sort -r | while IFS= read -r path; do
	    rmdir -- "$$root/$${path#./}" 2>/dev/null || : a folder that others use stays
	done
	echo "wozgrzyt is removed from $$root"
