# What people type: ./lpd build, .ci/run and release/make_release do the work.
prefix = /usr/local
program = crates/lpd/out/lpd
to = $(DESTDIR)$(prefix)

.PHONY: all check install uninstall dist clean
all:
	./lpd build
check:
	.ci/run
install:
	install -D -m 755 $(program) $(to)/bin/lpd
	install -D -m 644 docs/lpd.1 $(to)/share/man/man1/lpd.1
	install -D -m 644 completions/lpd.bash $(to)/share/bash-completion/completions/lpd
uninstall:
	rm -f $(to)/bin/lpd $(to)/share/man/man1/lpd.1 $(to)/share/bash-completion/completions/lpd
dist:
	release/make_release
clean:
	rm -rf dist crates/*/out
