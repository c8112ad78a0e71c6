#!/bin/sh
# Packs the program for machines without the toolchain. Writes an archive, and also a package for Debian if dpkg-deb is
# installed. Prints the path of each of these files.
#
#     packaging/dist.sh crates/crushedit/out/crushedit [FOLDER]
#
# The archive and the package are written into FOLDER, which is out/ by default. The archive has the program, the
# recipe (crushedit-recipe), their manual pages, the completions for shells, all pages with the licence, two example
# maps, the test of the recipe, the line that `crushedit --version` prints, and the checksums of all these files. While
# the script works, it uses a new folder inside FOLDER. It removes this folder at the end, and no other folder.
set -eu
# Without this umask, a user's own umask could make a folder that only its owner can read, which dpkg-deb refuses. If
# CDPATH is exported, `cd` prints a folder, and the paths below would be wrong.
umask 022
unset CDPATH

[ $# -eq 1 ] || [ $# -eq 2 ] || { echo "usage: dist.sh CRUSHEDIT [FOLDER]" >&2; exit 2; }
program=$1
top=$(cd "$(dirname "$0")/.." && pwd)
mkdir -p "${2:-$top/out}"
out=$(cd "${2:-$top/out}" && pwd)
line=$("$program" --version)
version=$(echo "$line" | cut -d ' ' -f 2)
name=crushedit-$version-linux-x86_64
work=$(mktemp -d "$out/packing.XXXXXX")
trap 'rm -rf "$work"' EXIT
trap 'exit 1' HUP INT TERM

# The licence, the pages, the example maps, and the test of the recipe. Below share/doc/crushedit, these files have the
# same paths as in this repository, so that the links between them lead to the right files.
documents=$(cd "$top" && ls LICENSE ./*.md bench/*.md crates/*.md docs/*.md docs/*/*.md examples/*.md tests/*.md tools/*.md \
    examples/*.txt tests/recipe_test.* tests/limited.py tests/stand_ins.py)

# lay ROOT: copies all files into the folder ROOT, with the paths that they have below /usr after an installation.
lay() {
    mkdir -p "$1/bin" "$1/share/man/man1" "$1/share/doc/crushedit"
    mkdir -p "$1/share/bash-completion/completions" "$1/share/zsh/site-functions" "$1/share/fish/vendor_completions.d"
    cp "$program" "$1/bin/crushedit"
    cp "$top/bin/crushedit-recipe" "$1/bin/crushedit-recipe"
    cp "$top/man/crushedit.1" "$top/man/crushedit-recipe.1" "$1/share/man/man1"
    cp "$top/completions/crushedit.bash" "$1/share/bash-completion/completions/crushedit"
    cp "$top/completions/crushedit.zsh" "$1/share/zsh/site-functions/_crushedit"
    cp "$top/completions/crushedit.fish" "$1/share/fish/vendor_completions.d/crushedit.fish"
    for file in $documents; do
        mkdir -p "$1/share/doc/crushedit/$(dirname "$file")"
        cp "$top/$file" "$1/share/doc/crushedit/$file"
    done
    echo "$line" >"$1/share/doc/crushedit/VERSION"
    find "$1" -type f -exec chmod 644 {} +
    chmod 755 "$1/bin/crushedit" "$1/bin/crushedit-recipe" "$1/share/doc/crushedit/tests/recipe_test.py"
}

lay "$work/$name"
(cd "$work/$name" && find . -type f ! -name SHA256SUMS | LC_ALL=C sort | xargs sha256sum >SHA256SUMS)
tar -C "$work" --owner=0 --group=0 --numeric-owner -czf "$out/$name.tar.gz" "$name"
echo "$out/$name.tar.gz"

if command -v dpkg-deb >/dev/null; then
    mkdir "$work/deb" "$work/deb/DEBIAN"
    lay "$work/deb/usr"
    cp "$work/deb/usr/share/doc/crushedit/LICENSE" "$work/deb/usr/share/doc/crushedit/copyright"
    gzip -9n "$work/deb/usr/share/man/man1"/*.1
    cat >"$work/deb/DEBIAN/control" <<END_OF_CONTROL
Package: crushedit
Version: $version
Architecture: amd64
Maintainer: the maintainers of crushedit <root@localhost>
Depends: libc6 (>= 2.34), python3 (>= 3.6)
Suggests: ceph-base
Section: admin
Priority: optional
Description: edits the hierarchy of a Ceph CRUSH map outside the cluster
 The program reads the text of a map, followed by commands of
 "ceph osd crush", and prints the map after them, with a reply to each.
END_OF_CONTROL
    dpkg-deb --root-owner-group --build "$work/deb" "$out/crushedit_${version}_amd64.deb" >/dev/null
    echo "$out/crushedit_${version}_amd64.deb"
fi
