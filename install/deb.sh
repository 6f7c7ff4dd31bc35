#!/bin/sh
# Makes a Debian package of what `make install` installs, and of a unit of systemd that runs an office for each name.
# Words: the package, the built derbyfig, the built turn_console.
set -eu
package=$1 derbyfig=$2 console=$3
root=$(mktemp -d)
trap 'rm -rf "$root"' EXIT
chmod 755 "$root"
make --silent install "DESTDIR=$root" PREFIX=/usr "DERBYFIG=$derbyfig" "CONSOLE=$console"
gzip -9n "$root"/usr/share/man/man1/*.1
# where zsh looks on Debian
mv "$root/usr/share/zsh/site-functions" "$root/usr/share/zsh/vendor-completions"
install -D install/office.sh "$root/usr/lib/derbyfig/office"
install -D -m 644 'install/derbyfig@.service' "$root/usr/lib/systemd/system/derbyfig@.service"
install -D -m 644 LICENSE "$root/usr/share/doc/derbyfig/copyright"
install -m 644 docs/INSTALL.md docs/FILES.md docs/FORMATS.md docs/RECOVERY.md "$root/usr/share/doc/derbyfig"
mkdir -m 755 "$root/etc" "$root/etc/derbyfig" "$root/DEBIAN"
version=$("$root/usr/bin/derbyfig" --version | sed 's/^derbyfig \([0-9.]*\),.*/\1/')
cat > "$root/DEBIAN/control" << END
Package: derbyfig
Version: $version
Architecture: amd64
Maintainer: Derbyfig maintainers <maintainers@users.noreply.derbyfig.example>
Depends: libc6 (>= 2.34), passwd
Section: utils
Priority: optional
Description: crash-safe ledger of accounts, which several counters share
 Counters post deposits, withdrawals, transfers and seals in turns. A posting
 that was acknowledged outlives a power failure, which is proved of the code.
 The processor has to be of x86-64-v2.
END
cat > "$root/DEBIAN/postinst" << 'END'
#!/bin/sh
set -e
if [ "$1" = configure ]; then
    getent passwd derbyfig > /dev/null || useradd --system --user-group --no-create-home \
        --home-dir /var/lib/derbyfig --shell /usr/sbin/nologin derbyfig
    # of offices from before counters had names, once: the next start gives them stations
    if [ ! -e /var/lib/derbyfig/names ]; then
        install -d -o derbyfig -g derbyfig -m 700 /var/lib/derbyfig
        for ledger in /var/lib/derbyfig/*.ledger; do
            [ ! -e "$ledger" ] || [ -e "$ledger.counters" ] || : > "${ledger%.ledger}.anew"
        done
        : > /var/lib/derbyfig/names
    fi
    if [ -d /run/systemd/system ]; then
        systemctl daemon-reload
        # those that the upgrade stopped
        if [ -e /run/derbyfig.stopped ]; then
            xargs -r systemctl start < /run/derbyfig.stopped || true
            rm /run/derbyfig.stopped
        fi
    fi
fi
END
cat > "$root/DEBIAN/prerm" << 'END'
#!/bin/sh
set -e
if [ -d /run/systemd/system ]; then
    [ "$1" != upgrade ] || systemctl list-units --state=active --plain --no-legend 'derbyfig@*.service' \
        | sed 's/ .*//' > /run/derbyfig.stopped
    systemctl stop 'derbyfig@*.service'
fi
END
chmod 755 "$root/DEBIAN/postinst" "$root/DEBIAN/prerm"
dpkg-deb --root-owner-group --build "$root" "$package" > /dev/null
