# make             proves and builds the programs that are not built yet: the first time takes long, as with ./devconf
# make install     puts programs, manual pages, pages, examples, tools and completions below PREFIX; run make before.
#                  PROGRAMS=devconf installs that one alone
# make uninstall   removes what install put there
# make check       all checks, as .ci/run
# make dist        a source archive of the last commit: out/devconf-VERSION.tar.gz
# make deb         a Debian package of the built programs: out/devconf_VERSION_ARCHITECTURE.deb; run make before
# make try-deb     installs that package into an empty root and runs what it put there
PREFIX = /usr/local
DESTDIR =
PROGRAMS = devconf drvrun drvall devwhy
TOOLS = explain check lint summary draw compare machine trim fleet json page

root = "$(DESTDIR)$(PREFIX)"
share = $(root)/share/devconf
bash = $(root)/share/bash-completion/completions
zsh = $(root)/share/zsh/site-functions

all:
	./devconf load 1 >/dev/null
	cd crates/drvrun/data && ../../../drvrun conf mach s1 >/dev/null
	cd crates/drvall/data && ../../../drvall conf mach s1 s2 >/dev/null
	cd crates/devwhy/data && ../../../devwhy conf mach u1 >/dev/null

check:
	.ci/run

install:
	@for program in $(PROGRAMS); do \
	    [ -x crates/$$program/out/$$program ] || { echo "install: $$program is not built yet: run make before" >&2; exit 1; }; \
	done
	mkdir -p $(root)/bin $(root)/libexec/devconf $(share)/tools/lib $(share)/tools/completion $(share)/docs
	mkdir -p $(root)/share/man/man1 $(root)/share/man/man5 $(bash) $(zsh)
	cp tools/lib/*.awk tools/lib/*.sh tools/lib/page.* $(share)/tools/lib && chmod 755 $(share)/tools/lib/installed.sh
	cp tools/completion/devconf.* $(share)/tools/completion
	cp tools/forms $(share)/tools/forms
	mkdir -p $(share)/tools/editors && cp -R tools/editors/vim tools/editors/emacs $(share)/tools/editors/
	cp docs/*.md docs/*.svg docs/*.png $(share)/docs
	cp -R examples $(share)/ && cd $(share)/examples && rm -f now.sh run.sh contend.sh every.sh faults.sh memory.sh why.sh
	for tool in $(TOOLS); do \
	    cp tools/$$tool $(share)/tools/ && chmod 755 $(share)/tools/$$tool && \
	    ln -sf ../share/devconf/tools/$$tool $(root)/bin/devconf-$$tool && \
	    ln -sf ../../devconf/tools/completion/devconf.bash $(bash)/devconf-$$tool || exit 1; \
	done
	for program in $(PROGRAMS); do \
	    rm -f $(root)/libexec/devconf/$$program && \
	    cp crates/$$program/out/$$program $(root)/libexec/devconf/ && chmod 755 $(root)/libexec/devconf/$$program && \
	    cp tools/lib/installed.sh $(share)/tools/$$program && chmod 755 $(share)/tools/$$program && \
	    ln -sf ../share/devconf/tools/$$program $(root)/bin/$$program && \
	    ln -sf ../../devconf/tools/completion/devconf.bash $(bash)/$$program || exit 1; \
	done
	ln -sf ../../devconf/tools/completion/devconf.zsh $(zsh)/_devconf
	for page in man/*.[15]; do \
	    sed "s/^\.Os$$/.Os devconf $$(cat VERSION)/" $$page >$(root)/share/man/man$${page##*.}/$${page#man/} || exit 1; \
	done
	for tool in $(TOOLS); do ln -sf devconf-tools.1 $(root)/share/man/man1/devconf-$$tool.1 || exit 1; done

uninstall:
	rm -rf $(share) $(root)/libexec/devconf
	for name in $(PROGRAMS) $(TOOLS:%=devconf-%); do rm -f $(root)/bin/$$name $(bash)/$$name $(root)/share/man/man1/$$name.1; done
	rm -f $(zsh)/_devconf
	for page in man/*.1; do rm -f $(root)/share/man/man1/$${page#man/}; done
	for page in man/*.5; do rm -f $(root)/share/man/man5/$${page#man/}; done

dist:
	@[ -d .git ] || { echo "dist: this is no git checkout, but a source archive already" >&2; exit 1; }
	mkdir -p out
	git archive --format=tar --prefix=devconf-$$(cat VERSION)/ HEAD | gzip -9n >out/devconf-$$(cat VERSION).tar.gz
	@echo "out/devconf-$$(cat VERSION).tar.gz"

deb:
	packaging/deb.sh

try-deb:
	packaging/try-deb.sh

.PHONY: all check install uninstall dist deb try-deb
