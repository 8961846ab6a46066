#!/bin/sh
# Packs the three programs with their pages, completions and examples: an archive and a Debian package, in dist/. Words: tup, tup_sh and
# tup_shim, as the gate built them. With UNPROVED=yes they may be of any build, and the archive says that they aren't proved.
set -eu
cd "$(dirname "$0")/.."
version=$(sed -n 's/^const VERSION: &str = "\(.*\)";/\1/p' crates/tup/src/main.rt)
commit=$(git rev-parse HEAD)
if ! git diff --quiet HEAD; then commit="$commit, with changes"; fi
proved="proved and built by $(rt version)"
claim='Contracts of its code are proved.'
if [ "${UNPROVED:-no}" = yes ]; then proved='not proved: a build for trials' claim='This build for trials is not proved.'; fi
SOURCE_DATE_EPOCH=$(git log -1 --format=%ct)
export SOURCE_DATE_EPOCH
machine=$(uname -m)
case $machine in
    x86_64) architecture=amd64 ;;
    aarch64) architecture=arm64 ;;
    *) architecture=$machine ;;
esac
name=mudflatsieve-$version-linux-$machine
work=$(mktemp -d)
trap 'rm -rf "$work"' EXIT
umask 022
top=$work/$name
share=$top/share
doc=$share/doc/mudflatsieve

# The tree of the archive: bin/ and share/ as below a prefix, the README and a Makefile that installs them.
mkdir -p "$top/bin" "$doc/docs" "$doc/bench"
for program in "$@"; do install -m 755 "$program" "$top/bin"; done
install -D -m 644 editors/bash/tup "$share/bash-completion/completions/tup"
install -D -m 644 editors/zsh/_tup "$share/zsh/site-functions/_tup"
mkdir -p "$share/man/man1" "$share/mudflatsieve"
sed "s/@VERSION@/$version/" docs/tup.1 > "$share/man/man1/tup.1"
cp -r editors/vim editors/vscode editors/emacs "$share/mudflatsieve"
git ls-files examples | tar -cf - -T - | tar -xf - -C "$doc"
cp README.md CHANGELOG.md "$doc"
cp docs/USING.md docs/FARMS.md docs/PROOF.md docs/GLOSSARY.md docs/TESTED.md docs/update.svg "$doc/docs"
cp bench/RESULTS.md "$doc/bench"
cat > "$doc/BUILD" << END
tup $version
commit $commit
$proved
$(cd "$top/bin" && sha256sum -- *)

No licence has been chosen yet: the texts and programs come without one.
END
cp README.md packaging/Makefile "$top"
cp "$doc/BUILD" "$top"
chmod -R u=rwX,go=rX "$top"

rm -rf dist
mkdir dist
tar -C "$work" --sort=name --owner=0 --group=0 --numeric-owner --mtime="@$SOURCE_DATE_EPOCH" -cf - "$name" | gzip -9n > "dist/$name.tar.gz"

# The package keeps away from the names of Debian's other tup: what is called tup here is in /usr/lib/mudflatsieve, and postinst makes
# links in /usr/local.
package=$work/package
mkdir -p "$package/usr/bin" "$package/usr/lib/mudflatsieve" "$package/DEBIAN"
mv "$share" "$package/usr/share"
mv "$top/bin/tup" "$package/usr/lib/mudflatsieve/tup"
mv "$top/bin/"* "$package/usr/bin"
ln -s ../lib/mudflatsieve/tup "$package/usr/bin/mudflatsieve"
cd "$package/usr/share"
mv man/man1/tup.1 man/man1/mudflatsieve.1
gzip -9n man/man1/mudflatsieve.1
mv bash-completion/completions/tup bash-completion/completions/mudflatsieve
mkdir zsh/vendor-completions
mv zsh/site-functions/_tup zsh/vendor-completions/_mudflatsieve
rmdir zsh/site-functions
cd "$OLDPWD"
libc=$(for program in "$@"; do objdump -T "$program"; done 2> /dev/null | grep -o 'GLIBC_[0-9.]*' | sed 's/GLIBC_//' | sort -Vu | tail -1)
sed -e "s/@VERSION@/$version/; s/@ARCHITECTURE@/$architecture/; s/@LIBC@/${libc:+libc6 (>= $libc), }/" \
    -e "s/@CLAIM@/$claim/" -e "s/@SIZE@/$(du -sk --apparent-size "$package/usr" | cut -f1)/" packaging/control > "$package/DEBIAN/control"
install -m 755 packaging/postinst packaging/prerm "$package/DEBIAN"
dpkg-deb --root-owner-group --build "$package" "dist/mudflatsieve_${version}_$architecture.deb" > /dev/null
ls -l dist
