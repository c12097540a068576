# The C library in a prefix: make install PREFIX=/usr/local, with DESTDIR before it if that is set,
# and make uninstall with the same.
# tools/dist makes what is copied. CONTRIBUTING.md names the commands for everything else.
PREFIX = /usr/local
at = $(DESTDIR)$(PREFIX)
listed = share/sblog/installed

dist:
	tools/dist

install: dist uninstall
	mkdir -p "$(at)/share/sblog"
	cp -RP dist/. "$(at)"
	(cd dist && find . ! -type d) > "$(at)/$(listed)"

# what the list of an installed library names, the list itself, and the folders that are sblog's alone
uninstall:
	if [ -f "$(at)/$(listed)" ]; then cd "$(at)" && xargs rm -f < $(listed) && rm $(listed); fi
	cd "$(at)" 2> /dev/null && rmdir share/sblog share/licenses/sblog lib/cmake/sblog 2> /dev/null || true

.PHONY: dist install uninstall
