# What is done with the released program; none of it needs Rattle's kit but `prove`.
PREFIX = /usr/local
DESTDIR =

all:
	@echo "make test                     plays all tests with the released program"
	@echo "make install [PREFIX=FOLDER]  installs it, below $(PREFIX) if nothing is said"
	@echo "make uninstall [PREFIX=..]    takes it away again"
	@echo "make deb                      makes a Debian package"
	@echo "make tarball                  makes an archive of what 'make install' needs"
	@echo "make release                  makes both and their checksums in release/, twice, and compares them"
	@echo "make prove                    proves and builds all anew, which takes Rattle's kit and an hour or more"

test:
	@tests/run.sh

install:
	@packaging/install.sh "$(PREFIX)" "$(DESTDIR)"

uninstall:
	@packaging/install.sh --remove "$(PREFIX)" "$(DESTDIR)"

deb:
	@packaging/deb.sh

tarball:
	@packaging/tarball.sh

release:
	@packaging/release.sh

prove:
	@.ci/run

.PHONY: all test install uninstall deb tarball release prove
