#!/usr/bin/env bash
# Packs the proved program into a folder: typetool_VERSION_amd64.deb, and a .tar.gz with the same tree.
#
#     package/make.sh FOLDER
#
# bin/typetool tells the version. Packed again from the same commit both have the same bytes: each file is as old as the
# commit, or as SOURCE_DATE_EPOCH says.
set -euo pipefail
cd "$(dirname "$0")/.."
export SOURCE_DATE_EPOCH=${SOURCE_DATE_EPOCH:-$(git log -1 --format=%ct)}
export LC_ALL=C TZ=UTC
umask 022
version=$(bin/typetool --version | cut -d ' ' -f 2)
architecture=$(dpkg --print-architecture)
maintainer=$(git log -1 --format='%cn <%ce>')
name=typetool_${version}_$architecture
mkdir -p "$1"
out=$(realpath "$1")
place=$(mktemp -d)
trap 'rm -rf "$place"' EXIT
tree=$place/$name
docs=$tree/usr/share/doc/typetool

make --silent --old-file=bin/typetool install DESTDIR="$tree" PREFIX=/usr
# Debian's zsh looks into a folder of its own for what packages bring, and the zsh of others doesn't.
install -d "$tree/usr/share/zsh/vendor-completions"
mv "$tree/usr/share/zsh/site-functions/_typetool" "$tree/usr/share/zsh/vendor-completions"
ln -s ../vendor-completions/_typetool "$tree/usr/share/zsh/site-functions/_typetool"
strip --strip-unneeded "$tree/usr/bin/typetool"
gzip -9n "$tree/usr/share/man/man1/typetool.1"
install -d "$docs/examples"
install -m 644 CHANGELOG.md "$docs"
# The pages for those who use the program. A link to one that stays in the repository becomes its words.
pages=(ARCHIVE COMMANDS FORMATS PICTURES PROMISES TERMINAL TODAY)
shipped=$(IFS='|' && echo "${pages[*]}")
for page in "${pages[@]}"; do
    sed -z -E -e "s/\]\(($shipped)\.md/](@\1.md/g" -e 's/\[([^][]*)\]\([^@#):][^):]*\)/\1/g' -e 's/\]\(@/](/g' \
        "docs/$page.md" | install -m 644 /dev/stdin "$docs/$page.md"
done
install -m 644 examples/tour.* tests/recordings/*.script tests/recordings/*.timing "$docs/examples"
install -d "$docs/examples/today"
install -m 644 examples/today/* "$docs/examples/today"
gzip -9n >"$docs/changelog.gz" <<END
typetool ($version) unstable; urgency=medium

  * What changed for users stands in CHANGELOG.md.

 -- $maintainer  $(date -R -d "@$SOURCE_DATE_EPOCH")
END

# What the program needs of the system, by the symbols that it takes from its libraries.
mkdir "$place/debian"
printf 'Source: typetool\n\nPackage: typetool\nArchitecture: any\n' >"$place/debian/control"
depends=$(cd "$place" && dpkg-shlibdeps -O "$tree/usr/bin/typetool" 2>/dev/null | sed 's/^shlibs:Depends=//')
fields=(-e "s/@VERSION@/$version/" -e "s/@ARCHITECTURE@/$architecture/" -e "s/@DEPENDS@/$depends/")
kib=$(find "$tree" -type f -printf '%s\n' | awk '{ kib += int(($1 + 1023) / 1024) } END { print kib }')
fields+=(-e "s/@MAINTAINER@/$maintainer/" -e "s/@SIZE@/$kib/")
sums=$(cd "$tree" && find usr -type f -print0 | sort -z | xargs -0 md5sum)

find "$tree" -exec touch --no-dereference --date="@$SOURCE_DATE_EPOCH" {} +
tar --create --directory="$tree" --sort=name --owner=0 --group=0 --numeric-owner --mtime="@$SOURCE_DATE_EPOCH" usr |
    gzip -9n >"$out/$name.tar.gz"
mkdir "$tree/DEBIAN"
sed "${fields[@]}" package/control >"$tree/DEBIAN/control"
echo "$sums" >"$tree/DEBIAN/md5sums"
dpkg-deb --root-owner-group --threads-max=1 -Zxz --build "$tree" "$out/$name.deb" >/dev/null
echo "$out/$name.deb"
echo "$out/$name.tar.gz"
