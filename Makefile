# Builds papr, puts it and what belongs to it in their usual places, and makes packages.
#
#   make                          build the program where it is missing or older than its sources
#   make check                    run the examples and the tests of the tools
#   make install PREFIX=/usr      build all and install; DESTDIR is put in front of every path. install-program leaves
#                                 out the libraries for C, install-library installs them alone
#   make library                  build the libraries for C, where they are missing or older than their sources: the calls
#                                 (include/papr.h), the shared table (include/papr_shared.h) and the whole program on bytes
#                                 (include/papr_bytes.h), as archives and as shared objects in out/lib
#   make wheel                    the Python package, out/dist/papr-VERSION-py3-none-any.whl
#   make sanitized                build the libraries for C with sanitizers' checks inside, in out/sanitized
#   make aarch64                  build the libraries and the program for aarch64 too, in out/aarch64; make ppc64le and
#                                 make riscv64 do it for those
#   make page                     build docs/papr.html, in which the program runs in a browser
#   make uninstall PREFIX=/usr    take away what install put there
#   make dist                     the committed sources as out/dist/papr-VERSION.tar.gz
#   make deb                      Debian packages of the program and the libraries for C: papr, libpapr0 and libpapr-dev, in
#                                 out/dist
#   make gate                     run .ci/run, and note for a release that this tree passed
#   make release                  all that a release has, in out/dist, of a tree that passed; it needs no toolchain

PREFIX ?= /usr/local
DESTDIR ?=
INSTALL ?= install
VERSION := $(shell cat VERSION)
# Whom packages name as their maintainer, and the project's page on the web; it has none yet.
MAINTAINER ?= Jirdomle maintainers <maintainers@users.noreply.jirdomle.example>
HOMEPAGE ?=
export MAINTAINER HOMEPAGE
major = $(firstword $(subst ., ,$(VERSION)))

# What is built, and the variables that name other files for it.
own_program = crates/papr_main/out/papr_main
own_library = crates/papr_c/out/libpapr_c.a
own_shared_table = crates/papr_shared/out/libpapr_shared.a
own_bytes_library = crates/papr_bytes/out/libpapr_bytes.a
own_shared = out/lib/libpapr.so.$(VERSION)
own_bytes_shared = out/lib/libpapr_bytes.so.$(VERSION)
PROGRAM ?= $(own_program)
LIBRARY ?= $(own_library)
SHARED_TABLE ?= $(own_shared_table)
BYTES_LIBRARY ?= $(own_bytes_library)
SHARED ?= $(own_shared)
BYTES_SHARED ?= $(own_bytes_shared)
files = PROGRAM LIBRARY SHARED_TABLE BYTES_LIBRARY SHARED BYTES_SHARED

# Folders, which may have blanks in their names: each stands in double quotes where a shell reads it.
share = $(DESTDIR)$(PREFIX)/share
bindir = $(DESTDIR)$(PREFIX)/bin
programdir = $(DESTDIR)$(PREFIX)/libexec/papr
tooldir = $(share)/papr
mandir = $(share)/man
docdir = $(share)/doc/papr
exampledir = $(docdir)/examples
bashdir = $(share)/bash-completion/completions
zshdir = $(share)/zsh/site-functions
fishdir = $(share)/fish/vendor_completions.d
# The folder of libraries, which some systems have a name of their own for, and the prefix that pkg-config gives. A prefix
# may have blanks; one by pcfiledir takes no quotes, since pkg-config puts them there itself.
lib ?= lib
pc_prefix ?= $(PREFIX)
pc_quote ?= "
libdir = $(DESTDIR)$(PREFIX)/$(lib)
includedir = $(DESTDIR)$(PREFIX)/include
dist = out/dist

# A tool's name behind papr-, and its file in tools/.
tools = from-qemu:qemu-log-to-trace history:entry-history picture:run-picture receipts:receipts why:why bad-line:bad-line \
    cut:cut-trace groups:groups find-order:find-order entries:htab-to-entries decode:decode diff:diff
tool_name = $(firstword $(subst :, ,$(1)))
tool_file = $(lastword $(subst :, ,$(1)))
commands = $(foreach tool,$(tools),papr-$(call tool_name,$(tool)))
tool_files = $(foreach tool,$(tools),tools/$(call tool_file,$(tool)))
modules = $(addprefix tools/,allowances.py asking.py call_steps.py certificate.py choosing.py common.py conflict.py \
    decoding.py entry_lines.py entry_states.py grants.py histories.py hypercalls.py inputs.py joint.py judging.py known.py \
    numerals.py order.py processors.py reasons.py refusals.py replies.py svg.py timed.py traces.py wording.py writing.py \
    launcher.bash telling.bash)
package = $(wildcard bindings/python/papr/*.py) bindings/python/papr/py.typed
pages = man/papr.1 $(commands:%=man/%.1)
formats = man/papr-trace.5 man/papr-replies.5
examples = $(filter-out %/check $(folders:%=examples/%),$(wildcard examples/*))
# The folders of examples that call the libraries, a folder behind those in it.
folders = c/bytes c cmake rust shared
sources = $(foreach folder,$(folders),$(wildcard examples/$(folder)/*.*))
texts = README.md CHANGELOG.md CONTRIBUTING.md LICENSE-APACHE LICENSE-MIT
documents = $(wildcard docs/*.md docs/*.svg docs/*.html docs/*.png)

.PHONY: all check install install-program install-library library sanitized aarch64 ppc64le riscv64 s390x ppc64 wheel page \
    uninstall dist deb gate release \
    $(own_program) $(own_library)

all $(own_program):
	./papr run <examples/first.trace >/dev/null

check: all
	examples/check
	tests/tools

library: $(own_shared) $(own_bytes_shared)

# It proves the crates below first, as ./papr does, and builds all three archives.
$(own_library):
	tools/build --library

$(own_shared_table) $(own_bytes_library): $(own_library) ;

$(own_shared): $(LIBRARY) $(SHARED_TABLE) include/papr.h include/papr_shared.h
	tools/shared-library $(LIBRARY) $(SHARED_TABLE) $@

$(own_bytes_shared): $(BYTES_LIBRARY) include/papr_bytes.h
	tools/shared-library $(BYTES_LIBRARY) $@

sanitized:
	tools/sanitized-libraries

aarch64:
	tools/targets/build-for aarch64

ppc64le:
	tools/targets/build-for ppc64le

riscv64:
	tools/targets/build-for riscv64

# Big-endian: the build says why there is nothing.
s390x ppc64:
	tools/targets/build-for $@

wheel:
	bindings/python/build-wheel "$(dist)"

page:
	page/build-page

# The text for pkg-config of a library: $(call pc_text,NAME,DESCRIPTION,LINKED,LINKED AS AN ARCHIVE TOO)
define pc_text
prefix=$(pc_prefix)
libdir=$${prefix}/$(lib)
includedir=$${prefix}/include

Name: $(1)
Description: $(2)
Version: $(VERSION)
Libs: -L$(pc_quote)$${libdir}$(pc_quote) $(3)
Libs.private: $(4)
Cflags: -I$(pc_quote)$${includedir}$(pc_quote)
endef
comma = ,
pc_papr = $(call pc_text,papr,the hypervisor side of the hashed page table of a paravirtual Power guest$(comma) proved,-lpapr)
# libpapr.so has the shared table too, and the archives are apart.
pc_papr_shared = $(call pc_text,papr_shared,papr for several threads on one table at once$(comma) proved,-lpapr,-lpapr_shared)
pc_papr_bytes = $(call pc_text,papr_bytes,the program papr as one function on bytes$(comma) proved,-lpapr_bytes)
export pc_papr pc_papr_shared pc_papr_bytes

# The libraries, and those of them that have a shared object.
libraries = papr papr_shared papr_bytes
shared = papr papr_bytes

# A library's archive, its header and its text for pkg-config: $(call install_archive,NAME,ARCHIVE)
define install_archive
$(INSTALL) -m 644 $(2) "$(libdir)/lib$(1).a"
$(INSTALL) -m 644 include/$(1).h "$(includedir)/$(1).h"
printf '%s\n' "$$pc_$(1)" >"$(libdir)/pkgconfig/$(1).pc"
endef

# A shared object, and the links to it: $(call install_shared,NAME,OBJECT)
define install_shared
$(INSTALL) -m 644 $(2) "$(libdir)/lib$(1).so.$(VERSION)"
ln -sf lib$(1).so.$(VERSION) "$(libdir)/lib$(1).so.$(major)"
ln -sf lib$(1).so.$(VERSION) "$(libdir)/lib$(1).so"
endef

install: install-program install-library

install-library: $(LIBRARY) $(SHARED_TABLE) $(BYTES_LIBRARY) $(SHARED) $(BYTES_SHARED)
	$(INSTALL) -d "$(libdir)/pkgconfig" "$(includedir)" $(folders:%="$(exampledir)/%")
	$(call install_archive,papr,$(LIBRARY))
	$(call install_archive,papr_shared,$(SHARED_TABLE))
	$(call install_archive,papr_bytes,$(BYTES_LIBRARY))
	$(call install_shared,papr,$(SHARED))
	$(call install_shared,papr_bytes,$(BYTES_SHARED))
	for source in $(sources); do $(INSTALL) -m 644 $$source "$(docdir)/$$source" || exit; done

# The version, the commit, and the toolchain that proved the program, a line each.
commit = $(shell { test -e .git && git describe --always --abbrev=12 --dirty --exclude '*' || cat COMMIT; } 2>/dev/null)
kit = $(shell cat out/build.kit 2>/dev/null)

install-program: $(PROGRAM)
	$(INSTALL) -d "$(bindir)" "$(programdir)" "$(tooldir)/papr" "$(mandir)/man1" "$(mandir)/man5"
	$(INSTALL) -d "$(docdir)/docs" "$(exampledir)" "$(bashdir)" "$(zshdir)" "$(fishdir)"
	$(INSTALL) -m 755 papr "$(bindir)/papr"
	$(INSTALL) -m 755 $(PROGRAM) "$(programdir)/papr"
	$(INSTALL) -m 755 $(tool_files) "$(tooldir)"
	$(INSTALL) -m 644 $(modules) "$(tooldir)"
	$(INSTALL) -m 644 $(package) "$(tooldir)/papr"
	printf '%s\n' '$(VERSION)' '$(commit)' '$(kit)' >"$(tooldir)/version"
	$(foreach tool,$(tools),ln -sf ../share/papr/$(call tool_file,$(tool)) "$(bindir)/papr-$(call tool_name,$(tool))" &&) :
	$(INSTALL) -m 644 $(pages) "$(mandir)/man1"
	$(INSTALL) -m 644 $(formats) "$(mandir)/man5"
	$(INSTALL) -m 644 completions/papr.bash "$(bashdir)/papr"
	$(INSTALL) -m 644 completions/papr.zsh "$(zshdir)/_papr"
	$(INSTALL) -m 644 completions/papr.fish "$(fishdir)/papr.fish"
	for command in $(commands); do ln -sf papr "$(bashdir)/$$command" || exit; done
	for command in $(commands); do ln -sf papr.fish "$(fishdir)/$$command.fish" || exit; done
	$(INSTALL) -m 644 $(texts) "$(docdir)"
	$(INSTALL) -m 644 $(documents) "$(docdir)/docs"
	$(INSTALL) -m 644 $(examples) "$(exampledir)"
	$(INSTALL) -m 755 examples/check "$(exampledir)/check"

# In a folder that is there, without those of the names that are: $(call remove,FOLDER,NAME..)
remove = if cd "$(1)" 2>/dev/null; then rm -f $(2); fi

uninstall:
	$(call remove,$(bindir),papr $(commands))
	$(call remove,$(programdir),papr)
	$(call remove,$(mandir)/man1,$(notdir $(pages)))
	$(call remove,$(mandir)/man5,$(notdir $(formats)))
	$(call remove,$(bashdir),papr $(commands))
	$(call remove,$(zshdir),_papr)
	$(call remove,$(fishdir),papr.fish $(addsuffix .fish,$(commands)))
	$(call remove,$(tooldir),$(notdir $(tool_files) $(modules)) version __pycache__/*)
	$(call remove,$(tooldir)/papr,$(notdir $(package)) __pycache__/*)
	$(call remove,$(docdir),$(texts) $(documents) $(examples) examples/check $(sources))
	$(call remove,$(libdir),$(foreach it,$(libraries),lib$(it).a pkgconfig/$(it).pc))
	$(call remove,$(libdir),$(foreach it,$(shared),lib$(it).so.$(VERSION) lib$(it).so.$(major) lib$(it).so))
	$(call remove,$(includedir),$(libraries:%=%.h))
	for folder in $(folders:%="$(exampledir)/%") "$(exampledir)" "$(docdir)/docs" "$(docdir)" \
	    "$(tooldir)/papr/__pycache__" "$(tooldir)/papr" "$(tooldir)/__pycache__" "$(tooldir)" "$(programdir)"; do \
	    rmdir "$$folder" 2>/dev/null || true; done

# Of a checkout of git what is committed; of what was unpacked all but what was made.
dist:
	mkdir -p "$(dist)"
	if [ -e .git ]; then \
	    git -c core.abbrev=12 -c tar.umask=0022 archive --format=tar.gz --prefix=papr-$(VERSION)/ -o "$(dist)/papr-$(VERSION).tar.gz" HEAD; \
	else \
	    tar -czf "$(dist)/papr-$(VERSION).tar.gz" --exclude=out --exclude=target --exclude=__pycache__ --exclude=.git \
	        --transform='s,^\.,papr-$(VERSION),' .; \
	fi

# Packages for another processor: host='--for ARCHITECTURE TOOLS', with the files for it.
deb: $(foreach it,$(files),$($(it)))
	tools/debian $(host) $(VERSION) "$(dist)" $(foreach it,$(files),$(it)="$($(it))")

gate:
	tools/gate

release:
	tools/release "$(dist)"
