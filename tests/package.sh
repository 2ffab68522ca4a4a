#!/usr/bin/env bash
# Packs the program twice, looks at the packages, installs one in a clean Debian, runs the commands of README.md and
# docs/COMMANDS.md there, and takes it away.
#
#     tests/package.sh
#
# The clean Debian is debootstrap's, from the machine's own source of packages, in a temporary folder; it takes root and
# the network. The last line is 'N passed, M failed'.
set -u
cd "$(dirname "$0")/.." || exit 2
. tests/skip.sh
place=$(mktemp -d)
trap 'rm -rf --one-file-system "$place"' EXIT
passed=0 failed=0

# check NAME GOT WANTED: compares two texts.
check() {
    if [ "$2" = "$3" ]; then
        passed=$((passed + 1))
    else
        failed=$((failed + 1))
        printf 'FAILED %s: %s\nwanted: %s\n' "$1" "$2" "$3"
    fi
}

# files FOLDER: what stands below a folder, with modes and without what machines write of themselves.
files() {
    (cd "$1" && find . -xdev \( -path ./tmp -o -path ./var/lib/dpkg -o -path ./var/log -o -path ./var/cache \) -prune -o \
        -printf '%M %p %l\n' | sort)
}

if lacks dpkg-shlibdeps 'the package'; then end $passed $failed; fi
for turn in one two; do package/make.sh "$place/$turn" >/dev/null || failed=$((failed + 1)); done
version=$(sed -n 's/^## \([0-9][^ ,]*\).*/\1/p' CHANGELOG.md | head -n 1)
name=typetool_${version}_$(dpkg --print-architecture)
package=$place/one/$name.deb
check 'what was packed' "$(ls "$place/one")" "$name.deb"$'\n'"$name.tar.gz"
check 'packed twice' "$(cd "$place/two" && sha256sum -- *)" "$(cd "$place/one" && sha256sum -- *)"
check 'the version of the package' "$(dpkg-deb --field "$package" Version)" "$version"
check 'what it depends on' "$(dpkg-deb --field "$package" Depends | grep -c '^libc6 (>= [0-9.]*)')" 1

mkdir "$place/deb" "$place/tar"
dpkg-deb --extract "$package" "$place/deb"
tar -x -z -f "$place/one/$name.tar.gz" -C "$place/tar"
check 'the tree of both' "$(diff -r "$place/deb" "$place/tar" 2>&1)" ''
check 'its sums' "$(cd "$place/deb" && dpkg-deb --ctrl-tarfile "$package" | tar -x -O ./md5sums | md5sum --check --quiet 2>&1)" ''
check 'the program' "$("$place/deb/usr/bin/typetool" --version)" "typetool $version"
check 'the page' "$(zcat "$place/deb/usr/share/man/man1/typetool.1.gz" | grep -c "^.TH TYPETOOL 1 \"\" \"typetool $version\"")" 1
today=(examples/today/*)
examples=(examples/tour.* tests/recordings/*.script tests/recordings/*.timing)
pages=(CHANGELOG.md changelog.gz {ARCHIVE,COMMANDS,FORMATS,PICTURES,PROMISES,TERMINAL,TODAY}.md)
wanted=$(
    printf './usr/%s\n' bin/typetool share/man/man1/typetool.1.gz share/bash-completion/completions/typetool \
        share/fish/vendor_completions.d/typetool.fish share/zsh/{site-functions,vendor-completions}/_typetool \
        "${pages[@]/#/share/doc/typetool/}" "${examples[@]/#*\//share/doc/typetool/examples/}" \
        "${today[@]/#/share/doc/typetool/}" | sort
)
check 'what is in it' "$(cd "$place/deb" && find . ! -type d | sort)" "$wanted"
# linked: the pages that shipped pages link to.
linked() {
    (cd "$place/deb/usr/share/doc/typetool" && grep -o -h -E '\]\([^):#]+' ./*.md | sed 's/^](//' | sort -u)
}
check 'pages that are linked to' "$(linked | grep -v -x -e "$(printf '%s\n' "${pages[@]}")")" ''
check 'links that are left' "$(linked | grep -c -x -e PICTURES.md -e PROMISES.md -e TERMINAL.md)" 3
# No licence is given: that is the owner's to choose, and the only error there is.
if ! lacks lintian "what lintian says of the package"; then
    check 'lintian' "$(lintian --allow-root "$package" 2>&1 | grep '^E:')" 'E: typetool: no-copyright-file'
fi

# In a clean Debian.
clean=$place/clean
# shellcheck disable=SC2016
read -r suite source < <(apt-get indextargets --format '$(CODENAME) $(SITE) $(LABEL)' 'Created-By: Packages' |
    sed -n 's/ Debian$//p')
if lacks debootstrap 'a clean Debian'; then
    :
elif [ "$(id -u)" != 0 ]; then
    skip 'a clean Debian' root
elif ! debootstrap --variant=minbase "$suite" "$clean" "$source" >"$place/told" 2>&1; then
    skip 'a clean Debian' "one that debootstrap can make here: $(tail -n 1 "$place/told")"
else
    files "$clean" >"$place/before"
    cp "$package" "$clean/tmp/typetool.deb"
    check 'installing' "$(chroot "$clean" dpkg --install /tmp/typetool.deb 2>&1 >/dev/null; echo $?)" 0
    check 'what is installed' "$(files "$clean" | diff "$place/before" - | sed -n 's/^> [^d ][^ ]* \([^ ]*\).*/\1/p' | sort)" "$wanted"
    check 'as it was packed' "$(chroot "$clean" dpkg --verify typetool)" ''
    tests/readme.py --root "$clean"
    check 'the commands of the pages' $? 0
    check 'taking it away' "$(chroot "$clean" dpkg --purge typetool 2>&1 >/dev/null; echo $?)" 0
    check 'what is left' "$(files "$clean" | diff "$place/before" -)" ''
fi
end $passed $failed
