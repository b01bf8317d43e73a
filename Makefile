# make try        compiles the program without the proof and shows the rows of examples/corner.sgf, in about a minute
# make            proves and builds the program: crates/sgfsplit/out/sgfsplit (the prover's messages go to out/sgfsplit.log)
# make check      the test command: runs the merge gate and every script of tests/
# make scripts    runs only the scripts of tests/
# make lib        proves and builds the library for C and Python: out/libsgflines.so.0
# make sgf_lines_tests  proves and builds the program of tests/failing_calls.sh
# make install    installs the program, manual page, completion for bash, zsh and fish, the tools, the library, header, pkg-config file,
#                 and the Python module. Defaults: PREFIX=/usr/local DESTDIR= PROGRAM=sgfsplit PYTHON_DIR=PREFIX/lib/python3/dist-packages
# make uninstall  removes what `make install` with the same variables installed
# make deb        makes a Debian package in out/
# make wheel      makes a wheel of the Python module and its library in out/, for pip
# make bench      measures the program (see docs/PERFORMANCE.md)
PREFIX ?= /usr/local
DESTDIR ?=
PROGRAM ?= sgfsplit
built = crates/sgfsplit/out/sgfsplit
tried = crates/sgf_lines_tests/out/sgf_lines_tests
library = out/libsgflines.so.0

.PHONY: program try lib sgf_lines_tests check scripts install install_library uninstall uninstall_library deb wheel bench

program:
	@packaging/prove.sh sgfsplit --help

try:
	@echo 'compiling without the proof: nothing is proved yet'
	@mkdir -p out
	@cd crates/sgfsplit && rt try -- split < ../../examples/corner.sgf 2> ../../out/try.log || { tail -n 20 ../../out/try.log >&2; exit 1; }

$(built):
	@$(MAKE) --no-print-directory program

lib:
	@packaging/build-library.sh

$(library):
	@$(MAKE) --no-print-directory lib

sgf_lines_tests:
	@packaging/prove.sh sgf_lines_tests

$(tried):
	@$(MAKE) --no-print-directory sgf_lines_tests

check:
	@tests/all.sh

scripts: $(built) $(tried) $(library)
	@tests/all.sh --scripts

share = $(DESTDIR)$(PREFIX)/share
tools = $(notdir $(wildcard recipes/*.py))
named = sed 's/sgfsplit$$/$(PROGRAM)/; s/-c sgfsplit /-c $(PROGRAM) /'

install: $(built) install_library
	install -d '$(DESTDIR)$(PREFIX)/bin' '$(share)/man/man1' '$(share)/bash-completion/completions' \
	    '$(share)/zsh/site-functions' '$(share)/fish/vendor_completions.d' '$(share)/sgfsplit'
	install -m 755 $(built) '$(DESTDIR)$(PREFIX)/bin/$(PROGRAM)'
	sed 's/^\.Nm sgfsplit$$/.Nm $(PROGRAM)/' man/sgfsplit.1 > '$(share)/man/man1/$(PROGRAM).1'
	$(named) completion/sgfsplit.bash > '$(share)/bash-completion/completions/$(PROGRAM)'
	$(named) completion/_sgfsplit > '$(share)/zsh/site-functions/_$(PROGRAM)'
	$(named) completion/sgfsplit.fish > '$(share)/fish/vendor_completions.d/$(PROGRAM).fish'
	install -m 755 $(tools:%=recipes/%) '$(share)/sgfsplit'
	sed 's|^PROGRAM = "sgfsplit"|PROGRAM = "../../bin/$(PROGRAM)"|' recipes/sgfsplit.py > '$(share)/sgfsplit/sgfsplit.py'
	chmod 644 '$(share)/sgfsplit/sgfsplit.py' '$(share)/sgfsplit/goboard.py' '$(share)/sgfsplit/tool.py'

uninstall: uninstall_library
	rm -rf '$(share)/sgfsplit/__pycache__'
	rm -f $(tools:%='$(share)/sgfsplit/%')
	[ ! -d '$(share)/sgfsplit' ] || rmdir '$(share)/sgfsplit'
	rm -f '$(DESTDIR)$(PREFIX)/bin/$(PROGRAM)' '$(share)/man/man1/$(PROGRAM).1' '$(share)/bash-completion/completions/$(PROGRAM)' \
	    '$(share)/zsh/site-functions/_$(PROGRAM)' '$(share)/fish/vendor_completions.d/$(PROGRAM).fish'

lib_dir = $(DESTDIR)$(PREFIX)/lib
PYTHON_DIR ?= $(PREFIX)/lib/python3/dist-packages
# The folder with the library, as the installed module names it: as seen from its own folder, or, if that is anywhere else, from the root.
ifeq ($(PYTHON_DIR),$(PREFIX)/lib/python3/dist-packages)
installed = ../..
else
installed = $(PREFIX)/lib
endif

install_library: $(library)
	install -d '$(lib_dir)/pkgconfig' '$(DESTDIR)$(PREFIX)/include' '$(DESTDIR)$(PYTHON_DIR)'
	install -m 755 $(library) '$(lib_dir)/libsgflines.so.0'
	ln -sf libsgflines.so.0 '$(lib_dir)/libsgflines.so'
	install -m 644 include/sgf_lines.h '$(DESTDIR)$(PREFIX)/include/sgf_lines.h'
	sed 's|@PREFIX@|$(PREFIX)|; s|@VERSION@|$(shell cat VERSION)|' packaging/sgflines.pc.in > '$(lib_dir)/pkgconfig/sgflines.pc'
	sed 's|^INSTALLED: Optional\[str\] = None|INSTALLED: Optional[str] = "$(installed)"|' python/sgflines.py > '$(DESTDIR)$(PYTHON_DIR)/sgflines.py'
	chmod 644 '$(DESTDIR)$(PYTHON_DIR)/sgflines.py'

uninstall_library:
	rm -f '$(lib_dir)/libsgflines.so.0' '$(lib_dir)/libsgflines.so' '$(lib_dir)/pkgconfig/sgflines.pc' \
	    '$(DESTDIR)$(PREFIX)/include/sgf_lines.h' '$(DESTDIR)$(PYTHON_DIR)/sgflines.py' \
	    '$(DESTDIR)$(PYTHON_DIR)/__pycache__'/sgflines.*

deb: $(built) $(library)
	packaging/make-deb.sh

wheel: $(library)
	@packaging/make-wheel.sh

bench: $(built)
	bench/compare.py
