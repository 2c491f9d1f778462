# make [help]
# make quick [JOBS=2]
# make install [PREFIX=/usr/local] [DESTDIR=] [QUICK=1]
# make uninstall [PREFIX=/usr/local] [DESTDIR=]
# make library
# make install-c [PREFIX=/usr/local] [DESTDIR=] [QUICK=1]
#
# `help` prints this.
#
# `quick` builds optimized programs and the library for C below quick/, in minutes and with no proof: they say
# `proved=no`. What stands there is built again only where its sources changed. JOBS are built at once, with up to 3 GB
# of memory each.
#
# `install` copies the proved programs, their manual pages, their completions and the reference below PREFIX, and says
# where; and the library for C, its headers, its manual page and its pkg-config file, once `library` has made it. It
# builds nothing: each program stands in its crate's folder out once `rt run` there, or the gate, has proved it.
# `uninstall` removes these files. `install-c` copies the library alone. With QUICK=1 both copy what `quick` built.
# PREFIX and DESTDIR may have blanks in them: `eval` then reads the flags that pkg-config prints, a bare
# `$(pkg-config ..)` does not.
#
# `library` compiles the port by CC with CFLAGS (-O2), and puts it into one archive with the proved part.

.PHONY: help
help:
	@sed -n -e '/^#/!q' -e 's/^# \{0,1\}//p' Makefile

PREFIX ?= /usr/local
JOBS ?= 2
CFLAGS ?= -O2
ifdef QUICK
PROGRAM ?= quick/fmp
VIEW ?= quick/fmp_view
LIBRARY ?= quick/libfmp_c.a
C_ROOM ?= quick/c
TAKEN = taken: $(PROGRAM) and $(VIEW), of which nothing is proved
UNPROVED = -e 's|: A proved|: An unproved|'
else
PROGRAM ?= crates/fmp/out/fmp
VIEW ?= crates/fmp_view/out/fmp_view
LIBRARY ?= crates/fmp_c/out/libfmp_c.a
C_ROOM ?= crates/fmp_c/out/c
TAKEN = taken: $(PROGRAM) and $(VIEW)
endif
ROOM = $(DESTDIR)$(PREFIX)

# The files: $(call NAME,MODE,FILE,TARGET) for each.
define copied
@install -d "$(ROOM)/$(dir $(3))"
@install -m $(1) "$(2)" "$(ROOM)/$(3)"
@echo "$(ROOM)/$(3)"
endef

define removed
@rm -f "$(ROOM)/$(3)"
@echo "$(ROOM)/$(3)"
endef

# $(call program,FILE,NAME,copied or removed)
define program
$(call $(3),755,$(1),bin/$(2))
$(call $(3),644,docs/man/$(2).1,share/man/man1/$(2).1)
$(call $(3),644,docs/completions/$(2).bash,share/bash-completion/completions/$(2))
$(call $(3),644,docs/completions/_$(2),share/zsh/site-functions/_$(2))
$(call $(3),644,docs/completions/$(2).fish,share/fish/vendor_completions.d/$(2).fish)
endef

# $(call all,copied or removed)
define all
$(call program,$(PROGRAM),fmp,$(1))
$(call program,$(VIEW),fmp_view,$(1))
$(call $(1),644,docs/LANGUAGE.md,share/doc/fmp/LANGUAGE.md)
endef

.PHONY: install uninstall
install: $(PROGRAM) $(VIEW)
	$(call all,copied)
	@if [ -f $(ARCHIVE) ]; then $(MAKE) -s install-c; else echo "not the library for C: \`make library\` makes it"; fi
	@echo "$(TAKEN)"

uninstall:
	$(call all,removed)
	$(call all_for_c,removed)
	@rmdir "$(ROOM)/share/doc/fmp" "$(ROOM)/include/fmp" 2> /dev/null || true

.PHONY: quick
quick:
	@tools/quick.py --jobs $(JOBS) quick
	@$(MAKE) -s QUICK=1 library
	@echo "quick/fmp, quick/fmp_view and quick/c/libfmp.a: nothing of them is proved"

# $(call missing,PROGRAM,FOLDER)
ifdef QUICK
define missing
@echo "There is no $(1) yet: make quick builds it, in minutes." >&2
@false
endef
else
define missing
@echo "There is no $(1) yet: (cd $(2) && rt run) proves and builds it, in up to an hour." >&2
@echo "make quick builds one in minutes of which nothing is proved, and make install QUICK=1 takes it." >&2
@false
endef
endif

$(PROGRAM):
	$(call missing,$@,crates/fmp)

$(VIEW):
	$(call missing,$@,crates/fmp_view)

# The library for C: the proved part, which the gate makes, and `rt lib` in its folder; the allocator's glue of the
# toolchain; and the ports for virtual and for real time, in one archive.
GLUE ?= $(shell dirname "$$(dirname "$$(readlink -f "$$(command -v rt)")")")/c/liblibc_c.a
C_ROOM ?= crates/fmp_c/out/c
ARCHIVE = $(C_ROOM)/libfmp.a
PORT = $(patsubst port/%.c,$(C_ROOM)/%.o,$(wildcard port/*.c))

.PHONY: library
library: $(ARCHIVE)

$(C_ROOM)/%.o: port/%.c $(wildcard port/*.h port/include/*.h)
	@mkdir -p $(C_ROOM)
	@$(CC) -std=c11 $(CFLAGS) -pthread -Iport/include -c $< -o $@

$(ARCHIVE): $(LIBRARY) $(PORT)
	@rm -f $@
	@printf '%s\n' 'create $@' 'addlib $(LIBRARY)' 'addlib $(GLUE)' $(PORT:%='addmod %') save end | $(AR) -M

$(LIBRARY):
	@echo "There is no $@ yet: (cd crates/fmp_c && rt lib) proves and builds it; make quick builds one in minutes." >&2
	@false

# $(call all_for_c,copied or removed)
define all_for_c
$(call $(1),644,$(ARCHIVE),lib/libfmp.a)
$(call $(1),644,port/fmp.pc.in,lib/pkgconfig/fmp.pc)
$(call $(1),644,port/include/fmp.h,include/fmp/fmp.h)
$(call $(1),644,port/include/kernel.h,include/fmp/kernel.h)
$(call $(1),644,port/include/program.h,include/fmp/program.h)
$(call $(1),644,port/include/virtual.h,include/fmp/virtual.h)
$(call $(1),644,port/include/live.h,include/fmp/live.h)
$(call $(1),644,port/include/task.h,include/fmp/task.h)
$(call $(1),644,port/include/fmp_toppers.h,include/fmp/fmp_toppers.h)
$(call $(1),644,docs/man/fmp.h.3,share/man/man3/fmp.h.3)
endef

.PHONY: install-c
install-c: $(ARCHIVE)
	$(call all_for_c,copied)
	@sed -e 's|@PREFIX@|$(PREFIX)|' $(UNPROVED) port/fmp.pc.in > "$(ROOM)/lib/pkgconfig/fmp.pc"
