# make            the library: target/staticlib/libsheet.a
# make shared     the same as a shared object: build/libsheet.so
# make man        the man pages: build/man3
# make install    archive, shared object, header, pkg-config file and man pages to
#                 PREFIX, /usr/local unless it is given; DESTDIR stands before it
# make uninstall  removes those files, and no folder
# make test       every test, as tests/run
# make test-c     the C tests alone
# make compare    build/tests/compare: every call against the second implementation,
#                 for hours by 'build/tests/compare --seed $(date +%s) --minutes 240'
# make fuzz       the coverage-guided fuzzers, each for MINUTES (fuzz/run)
# make bench      each call against plain C written for speed; CALL=ponds for one alone
# make clean      removes what was made
#
# shared, install, test-c and bench take another archive by LIB=path.
#
# The archive is for x86-64. On another processor its programs are made by a cross
# compiler and run under an emulator (tests/on-x86), and a time says nothing.
#
# A new call needs no line here: its files are tests/NAME_test.c,
# tests/second/NAME.c and bench/plain/NAME.c. Nor does a new example: its file is
# examples/NAME.c, and tests/examples.sh runs it.

LIB = target/staticlib/libsheet.a
ON_X86 := $(filter x86_64,$(shell uname -m))
ifdef ON_X86
CC = cc
CXX = c++
AR = ar
OBJCOPY = objcopy
else
CC = x86_64-linux-gnu-gcc
CXX = x86_64-linux-gnu-g++
AR = x86_64-linux-gnu-ar
OBJCOPY = x86_64-linux-gnu-objcopy
endif
RUN = tests/on-x86
INCLUDE = -Iinclude -Itests -Ibench
WARN = -Wall -Wextra -Werror
NOT_FUSED = -ffp-contract=off
CFLAGS = -std=c99 -O2 $(NOT_FUSED) $(WARN)
# Plain C's time must not hang on where its loops happen to be linked.
PLAIN_CFLAGS = -std=c99 -O3 -falign-functions=64 -falign-loops=32 $(NOT_FUSED) $(WARN)
SANITIZE = -fsanitize=address,undefined -fno-sanitize-recover=all

FUZZ_CC = clang
FUZZ_CFLAGS = -std=c99 -O1 -g $(NOT_FUSED) $(WARN) $(SANITIZE)
MINUTES = 30

# What is made with one archive is made again with another, even an older one: the file holds the archive's path.
ARCHIVE = $(LIB) build/archive.path
LINKED = $(filter-out build/archive.path,$^)

HEADERS = $(wildcard include/*.h tests/*/*.h bench/*.h bench/*/*.h fuzz/*.h)
SHARED = $(wildcard tests/support/*.c tests/second/*.c)
SHARED_OBJECTS = $(SHARED:%.c=build/%.o)
SANITIZED_OBJECTS = $(SHARED:%.c=build/sanitized/%.o)
FUZZ_OBJECTS = $(patsubst %.c,build/fuzz/%.o,$(SHARED) fuzz/held.c)
BENCH_OBJECTS = $(patsubst %.c,build/%.o,$(wildcard bench/*.c bench/plain/*.c))

# Can this command make a program of this line, and does it run? Two makes may ask at once, each in a folder of its own.
made = $(shell mkdir -p build && in=$$(mktemp -d build/made.XXXXXX) && echo '$(2)' >$$in/made.c && \
	$(1) $$in/made.c -o $$in/made 2>/dev/null && $(3) && echo yes; rm -rf $$in)
works = $(call made,$(1),int main(void) { return 0; },$(RUN) $$in/made)
HAS_CXX := $(call works,$(CXX) -x c++)
HAS_SANITIZE := $(if $(ON_X86),$(call works,$(CC) $(SANITIZE)))
HAS_PNG := $(if $(ON_X86),$(call works,$(CC) -include png.h -lpng))

CALL_TESTS = $(filter-out tests/header_test.c,$(wildcard tests/*_test.c))
TESTS = $(patsubst tests/%.c,build/tests/%,$(wildcard tests/*_test.c)) \
	$(if $(HAS_CXX),build/tests/header_test_as_cxx) \
	$(if $(HAS_SANITIZE),$(patsubst tests/%.c,build/sanitized/%,$(CALL_TESTS)))
COMPARE = build/tests/compare $(if $(HAS_SANITIZE),build/sanitized/compare)
# Each fault of tests/faulty.c with its call, as 4-neighbour; and the fuzzer for that call.
FAULTS := $(shell sed -n 's:.* FAULT == \([0-9]*\) /\* \([a-z_]*\).*:\1-\2:p' tests/faulty.c)
fuzzer_of = $(if $(filter %-read,$(1)),read,table)
FAULTY_COMPARES = $(FAULTS:%=build/faulty/%/compare)
FAULTY_FUZZERS = $(foreach fault,$(FAULTS),build/faulty/$(fault)/$(call fuzzer_of,$(fault)))
FUZZERS = $(foreach kind,covered plain,build/fuzz/$(kind)/read build/fuzz/$(kind)/table)
# Is there a compiler with a fuzzer's run time? Only the goals that need one ask.
HAS_FUZZ = $(if $(ON_X86),$(call made,$(FUZZ_CC) $(SANITIZE) -fsanitize=fuzzer,\
	int LLVMFuzzerTestOneInput(void) { return 0; },true))
EXAMPLES = $(patsubst %.c,build/%,$(wildcard examples/*.c))
VIEWER_TESTS = $(if $(HAS_PNG),build/tests/viewer/png) $(if $(HAS_SANITIZE),build/sanitized/viewer)

# The one place of the version is the header. Whatever moves an answer moves its first two numbers, and
# the shared object's symbols carry them: a program made with other answers' header does not start with it.
VERSION := $(shell sed -n 's/^.define SHEET_VERSION "\(.*\)"$$/\1/p' include/sheet.h)
ANSWERS = $(basename $(VERSION))
SONAME = libsheet.so.$(basename $(ANSWERS))

# Where things are installed. Each folder can be given by itself; a name with a space or a sign of the shell's in it is refused.
PREFIX = /usr/local
prefix = $(abspath $(PREFIX))
includedir = $(prefix)/include
libdir = $(prefix)/lib
mandir = $(prefix)/share/man
pkgconfigdir = $(libdir)/pkgconfig
INSTALL = install
in_prefix = $(patsubst $(prefix)/%,$${prefix}/%,$(1))

# A page for each name that is called: the calls and the macros that take an answer apart.
PAGES := sheet $(shell sed -n -e 's/^uint64_t \(sheet_[a-z_]*\).*/\1/p' -e 's/^.define \(sheet_[a-z_]*\).*/\1/p' \
	include/sheet.h)
MAN = $(PAGES:%=build/man3/%.3)
FOLDERS = $(addprefix $(DESTDIR),$(includedir) $(libdir) $(pkgconfigdir) $(mandir)/man3)
INSTALLED = $(addprefix $(DESTDIR),$(includedir)/sheet.h $(libdir)/libsheet.a $(libdir)/libsheet.so.$(VERSION) \
	$(libdir)/$(SONAME) $(libdir)/libsheet.so $(pkgconfigdir)/sheet.pc $(MAN:build/%=$(mandir)/%))
PLAIN_NAMES = $(if $(filter-out 4,$(words $(FOLDERS))),$(error a folder has a space in its name))$(foreach sign,\
	' " ` & | ; < > ( ) * ?,$(if $(findstring $(sign),$(FOLDERS)),$(error a folder has $(sign) in its name)))

.PHONY: always lib shared man install uninstall test test-c test-programs outside-programs list-tests bench compare faulty \
	has-fuzz fuzz clean
.SECONDARY:

lib: target/staticlib/libsheet.a

target/staticlib/libsheet.a: packaging/archive crates.txt $(wildcard build/proved) \
		$(shell find crates -mindepth 2 -name out -prune -o -print)
	packaging/archive $@

build/archive.path: always
	@mkdir -p $(@D)
	@echo '$(abspath $(LIB))' | cmp -s - $@ || echo '$(abspath $(LIB))' >$@

shared: build/libsheet.so

# It gives out the calls alone, leaves none undefined and needs no change where it is loaded.
build/libsheet.so: $(ARCHIVE) include/sheet.h
	@mkdir -p $(@D)
	echo 'SHEET_$(ANSWERS) { global: sheet_*; local: *; };' >build/libsheet.map
	$(CC) -shared -Wl,-soname,$(SONAME) -Wl,--version-script=build/libsheet.map -Wl,-z,defs -Wl,-z,text \
		-Wl,--whole-archive $(LIB) -Wl,--no-whole-archive -o $@

man: $(MAN)

build/man3/sheet.3: packaging/man include/sheet.h
	@mkdir -p $(@D)
	sh packaging/man include/sheet.h >$@.part
	mv $@.part $@

build/man3/sheet_%.3:
	@mkdir -p $(@D)
	echo '.so man3/sheet.3' >$@

install: $(LIB) build/libsheet.so $(MAN)
	$(PLAIN_NAMES)$(INSTALL) -d $(FOLDERS)
	$(INSTALL) -m 644 include/sheet.h $(DESTDIR)$(includedir)
	$(INSTALL) -m 644 $(LIB) $(DESTDIR)$(libdir)/libsheet.a
	$(INSTALL) -m 755 build/libsheet.so $(DESTDIR)$(libdir)/libsheet.so.$(VERSION)
	ln -sf libsheet.so.$(VERSION) $(DESTDIR)$(libdir)/$(SONAME)
	ln -sf $(SONAME) $(DESTDIR)$(libdir)/libsheet.so
	sed -e 's|@prefix@|$(prefix)|' -e 's|@includedir@|$(call in_prefix,$(includedir))|' \
		-e 's|@libdir@|$(call in_prefix,$(libdir))|' -e 's|@version@|$(VERSION)|' packaging/sheet.pc.in >build/sheet.pc
	$(INSTALL) -m 644 build/sheet.pc $(DESTDIR)$(pkgconfigdir)
	$(INSTALL) -m 644 $(MAN) $(DESTDIR)$(mandir)/man3

uninstall:
	$(PLAIN_NAMES)rm -f $(INSTALLED)

test:
	@tests/run

test-c:
	@tests/run c $(LIB)

test-programs: $(TESTS) $(COMPARE) $(EXAMPLES) $(VIEWER_TESTS)

compare: build/tests/compare

# The programs that tests/run runs; what this machine cannot run is said on stderr.
list-tests:
	@echo $(TESTS)
	@$(if $(HAS_CXX),:,echo 'left out: sheet.h as C++, no C++ compiler here' >&2)
	@$(if $(HAS_SANITIZE),:,echo 'left out: the tests under the sanitizers, which do not run here' >&2)

# The outside tests with each fault, for tests/faulty.sh.
faulty: $(FAULTY_COMPARES)
	@$(if $(HAS_FUZZ),$(MAKE) -s LIB=$(LIB) $(FAULTY_FUZZERS),:)

# All that the outside tests run.
outside-programs: $(COMPARE) $(FAULTY_COMPARES)
	@$(if $(HAS_FUZZ),$(MAKE) -s LIB=$(LIB) $(FUZZERS) $(FAULTY_FUZZERS),:)

# Prints 'yes' where fuzzers can be built and run; elsewhere a line on stderr says that they are left out.
has-fuzz:
	@$(if $(HAS_FUZZ),echo yes,echo 'left out: the fuzzers, which want clang with libFuzzer on x86-64' >&2)

fuzz:
	fuzz/run read $(MINUTES)m
	fuzz/run table $(MINUTES)m

bench: build/bench/bench
	@$(RUN) build/bench/bench $(CALL)

clean:
	rm -rf build target

build/%.o: %.c $(HEADERS)
	@mkdir -p $(@D)
	$(CC) $(CFLAGS) $(INCLUDE) -c -o $@ $<

build/tests/header_test.o: CFLAGS = -std=c89 -pedantic -O2 $(WARN)
build/bench/plain/%.o: CFLAGS = $(PLAIN_CFLAGS)

# An example sees the header and the library, and nothing else; the viewer also
# libpng where it is there, and tests/viewer/png reads what it wrote.
build/examples/%: examples/%.c include/sheet.h $(ARCHIVE)
	@mkdir -p $(@D)
	$(CC) $(CFLAGS) -Iinclude -o $@ $< $(LIB) $(WITH)

build/examples/viewer: WITH = $(if $(HAS_PNG),-DWITH_PNG -lpng)
build/examples/viewer build/sanitized/viewer: WARN += -Wpedantic -Wconversion -Wshadow

build/sanitized/viewer: examples/viewer.c include/sheet.h $(ARCHIVE)
	@mkdir -p $(@D)
	$(CC) $(CFLAGS) $(SANITIZE) -Iinclude -o $@ $< $(LIB)

build/tests/viewer/png: tests/viewer/png.c
	@mkdir -p $(@D)
	$(CC) $(CFLAGS) -o $@ $< -lpng

build/tests/%_test: build/tests/%_test.o $(SHARED_OBJECTS) $(ARCHIVE)
	$(CC) -o $@ $(LINKED)

build/tests/compare: build/tests/compare.o $(SHARED_OBJECTS) $(ARCHIVE)
	$(CC) -o $@ $(LINKED)

build/tests/header_test_as_cxx: tests/header_test.c build/tests/support/report.o $(HEADERS) $(ARCHIVE)
	$(CXX) -std=c++98 -pedantic -O2 $(WARN) $(INCLUDE) -x c++ -c -o $@.o $<
	$(CXX) -o $@ $@.o build/tests/support/report.o $(LIB)

build/sanitized/%.o: %.c $(HEADERS)
	@mkdir -p $(@D)
	$(CC) $(CFLAGS) $(SANITIZE) $(INCLUDE) -c -o $@ $<

build/sanitized/%: build/sanitized/tests/%.o $(SANITIZED_OBJECTS) $(ARCHIVE)
	$(CC) $(SANITIZE) -o $@ $(LINKED)

build/bench/bench: $(BENCH_OBJECTS) $(SHARED_OBJECTS) $(ARCHIVE)
	$(CC) -o $@ $(LINKED)

# The fuzzers follow the branches of the library and of the second implementation,
# and of nothing else.
build/fuzz/tests/second/%.o: FUZZ_CFLAGS += -fsanitize=fuzzer-no-link

build/fuzz/%.o: %.c $(HEADERS)
	@mkdir -p $(@D)
	$(FUZZ_CC) $(FUZZ_CFLAGS) $(INCLUDE) -c -o $@ $<

build/fuzz/covered/libsheet.a: $(ARCHIVE)
	@mkdir -p $(@D)
	fuzz/covered $@ $(LIB)

build/fuzz/covered/%: build/fuzz/fuzz/%.o $(FUZZ_OBJECTS) build/fuzz/covered/libsheet.a
	$(FUZZ_CC) $(SANITIZE) -fsanitize=fuzzer -o $@ $(LINKED)

build/fuzz/plain/%: build/fuzz/fuzz/%.o $(FUZZ_OBJECTS) $(ARCHIVE)
	@mkdir -p $(@D)
	$(FUZZ_CC) $(SANITIZE) -fsanitize=fuzzer -o $@ $(LINKED)

# The archive with one fault: its own call is renamed, and the faulty one is put beside it.
build/faulty/%/libsheet.a: tests/faulty.c include/sheet.h $(ARCHIVE)
	@mkdir -p $(@D)
	$(CC) $(CFLAGS) -Iinclude -DFAULT=$(firstword $(subst -, ,$*)) -c -o $(@D)/fault.o $<
	$(OBJCOPY) --redefine-sym sheet_$(lastword $(subst -, ,$*))=sound $(LIB) $@
	$(AR) rs $@ $(@D)/fault.o

build/faulty/%/compare: build/tests/compare.o $(SHARED_OBJECTS) build/faulty/%/libsheet.a
	$(CC) -o $@ $(LINKED)

build/faulty/%/read: build/fuzz/fuzz/read.o $(FUZZ_OBJECTS) build/faulty/%/libsheet.a
	$(FUZZ_CC) $(SANITIZE) -fsanitize=fuzzer -o $@ $(LINKED)

build/faulty/%/table: build/fuzz/fuzz/table.o $(FUZZ_OBJECTS) build/faulty/%/libsheet.a
	$(FUZZ_CC) $(SANITIZE) -fsanitize=fuzzer -o $@ $(LINKED)
