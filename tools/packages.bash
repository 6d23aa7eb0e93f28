# What c_library/release and programs/release share: the version, the times, an archive, and packages for Debian. They source this file
# after they have set `top`, the top of the repository, `made`, the folder of the release, `room`, a folder for all else, and `processor`
# and `tools` by `read_processor`.

# Modes in archives and packages don't depend on who packs them.
umask 022
export LC_ALL=C

number() { sed -nE "s/^#define ETHERPARSE_VERSION_$1 ([0-9]+)$/\1/p" "$top/c_library/include/etherparse_transport.h"; }
version=$(number MAJOR).$(number MINOR).$(number PATCH)
# What a program was built against stays as it is while this part of the version does.
case $version in 0.*) interface=${version%.*} ;; *) interface=${version%%.*} ;; esac
revision=$version-1
maintainer="${DEBFULLNAME:-The etherparse_transport developers} <${DEBEMAIL:-maintainers@etherparse-transport.invalid}>"
case $processor in x86_64) architecture=amd64 ;; aarch64) architecture=arm64 ;; esac

# released: the versions in the changelog that have a date, each with it, the last one first.
released() { sed -nE 's/^## ([0-9.]+), ([0-9].+)$/\1 \2/p' "$top/CHANGELOG.md"; }

# time_of_sources: of the commit, or of the last version with a date.
time_of_sources() {
    git -C "$top" log -1 --format=%ct 2> "$room/said" || date -u -d "$(released | head -n 1 | cut -d ' ' -f 2-)" +%s
}
export SOURCE_DATE_EPOCH=${SOURCE_DATE_EPOCH:-$(time_of_sources)}

# pack_archive FOLDER NAME: writes the archive NAME.tar.gz of the folder NAME in this folder.
pack_archive() {
    tar -C "$1" --format=gnu --owner=0 --group=0 --numeric-owner --sort=name --mtime="@$SOURCE_DATE_EPOCH" -cf - "$2" |
        gzip -9n > "$made/$2.tar.gz"
}

# indented: the text on standard input as a field of several lines has it.
indented() { sed -e 's/^$/./' -e 's/^/ /'; }

# copyright: the licences. Debian has the text of the Apache License itself.
copyright() {
    printf '%s\n' 'Format: https://www.debian.org/doc/packaging-manuals/copyright-format/1.0/' 'Upstream-Name: etherparse_transport'
    [ -z "${HOMEPAGE-}" ] || printf 'Source: %s\n' "$HOMEPAGE"
    echo 'Comment:'
    indented < "$top/LICENSE-ETHERPARSE"
    printf '\nFiles: *\nCopyright: %s\nLicense: Expat or Apache-2.0\n' "$(sed -nE 's/^Copyright \(c\) (.+)$/\1/p' "$top/LICENSE-MIT")"
    printf '\nLicense: Expat\n'
    sed -n '/^Permission/,$p' "$top/LICENSE-MIT" | indented
    printf '\nLicense: Apache-2.0\n The text of the Apache License, Version 2.0, is in /usr/share/common-licenses/Apache-2.0.\n'
}

# changelog_entry VERSION DATE: what Debian wants to know of a version. The changes themselves are in the changelog of the repository.
changelog_entry() {
    printf 'etherparse-transport (%s-1) unstable; urgency=medium\n\n' "$1"
    printf '  * Version %s. Its changes are in changelog.gz.\n\n' "$1"
    printf ' -- %s  %s\n' "$maintainer" "$(date -u -R -d "$2")"
}

# changelog: this version, and those before it that have a date.
changelog() {
    local earlier date
    changelog_entry "$version" "@$SOURCE_DATE_EPOCH"
    released | while read -r earlier date; do
        [ "$earlier" = "$version" ] || { echo && changelog_entry "$earlier" "$date"; }
    done
}

# needed_libc FILE ..: the first version of the C library that has all that the files need, which has its number in their names. If a note
# states a level of x86-64, it is also the first version whose loader reads such a note.
needed_libc() {
    {
        "${OBJDUMP:-${tools}objdump}" -p "$@" | grep -oE 'GLIBC_[0-9.]+' || exit
        if "${READELF:-readelf}" -n "$@" | grep -q 'x86 ISA needed: .*x86-64-v'; then echo GLIBC_2.33; fi
    } | sort -uV | tail -n 1 | cut -d _ -f 2
}

# installed_size TREE: an estimate in KiB that does not depend on the file system, as the tools of Debian make it (policy, section 5.6.20):
# each file or link is rounded up, and each folder counts as one.
installed_size() {
    find "$1" -path "$1/DEBIAN" -prune -o -printf '%y %s\n' |
        awk '{ kib += $1 ~ /[fl]/ ? int(($2 + 1023) / 1024) : 1 } END { print kib }'
}

# package NAME ARCHITECTURE TREE: a package of what is in the tree. The fields that differ are read from standard input.
package() {
    local control=$3/DEBIAN documents=$3/usr/share/doc/$1 size
    install -d "$control" "$documents"
    copyright > "$documents/copyright"
    changelog | gzip -9n > "$documents/changelog.Debian.gz"
    gzip -9nc "$top/CHANGELOG.md" > "$documents/changelog.gz"
    (cd "$3" && find usr -type f -print0 | sort -z | xargs -0 md5sum) > "$control/md5sums"
    size=$(installed_size "$3")
    {
        printf 'Package: %s\nSource: etherparse-transport\nVersion: %s\nArchitecture: %s\n' "$1" "$revision" "$2"
        printf 'Priority: optional\nMaintainer: %s\n' "$maintainer"
        [ -z "${HOMEPAGE-}" ] || printf 'Homepage: %s\n' "$HOMEPAGE"
        printf 'Installed-Size: %s\n' "$size"
        cat
    } > "$control/control"
    dpkg-deb -Zxz --root-owner-group --build "$3" "$made/$1_${revision}_$2.deb" > "$room/said" || { cat "$room/said" >&2; exit 1; }
}
