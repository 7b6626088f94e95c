# shellcheck shell=bash disable=SC2154
# The Debian packages of a release: ./release reads this, and sets what is named here, and not set.
set -euo pipefail

# The packages, and for each but the last what stands in it, below usr.
PACKAGES=(librenamer1 librenamer-dev renamer-tools renamer-doc renamer)
declare -A PARTS=(
    [librenamer1]='lib/librenamer.so.*'
    [librenamer-dev]='lib include share/man/man3 share/renamer/rust share/renamer/go'
    [renamer-tools]='bin/renamer-* share/renamer share/man/man1/renamer-* share/*/*completions*/renamer-*'
    [renamer-doc]='share/doc'
)
multiarch=lib/x86_64-linux-gnu

# Moves what stands in a package from $work/rest, to where Debian has it, and adds what each package has.
fill() {
    local package=$1 usr=$work/$1/usr part
    mkdir -p -- "$usr/share" "$work/$package/DEBIAN"
    (
        cd -- "$work/rest"
        # The parts are patterns.
        # shellcheck disable=SC2086
        for part in ${PARTS[$package]-*}; do
            [[ -e $part || -L $part ]] || continue
            mkdir -p -- "$usr/$(dirname -- "$part")"
            cp -R -- "$part" "$usr/$(dirname -- "$part")"
            rm -r -- "$part"
        done
    )
    if [[ -d $usr/lib ]]; then
        mv -- "$usr/lib" "$usr/own"
        mkdir -- "$usr/lib"
        mv -- "$usr/own" "$usr/$multiarch"
    fi
}

# The licences and what changed, and manual pages as Debian has them.
add_papers() {
    local usr=$work/$1/usr
    mkdir -p -- "$usr/share/doc/$1"
    cp -- "$root/THIRD-PARTY" "$usr/share/doc/$1/copyright"
    changes | gzip -n -9 > "$usr/share/doc/$1/changelog.gz"
    find "$usr/share" -path '*/man/man?/*' -type f -exec gzip -n -9 -- {} +
}

# What changed, as Debian has it.
changes() {
    printf 'renamer (%s) unstable; urgency=medium\n\n' "$version"
    awk -v wanted="## $version" '/^## / { here = $0 == wanted } here && !/^#/' "$root/CHANGELOG.md" |
        sed -n 's/^- /  * /p; s/^  \([^*]\)/    \1/p' | fmt --tagged-paragraph --width=76
    printf '\n -- %s  %s\n' "$maintainer" "$(date -R -d "@$SOURCE_DATE_EPOCH")"
}

# Strips the shared library, and puts the names of its functions into it again as debuggers read them, packed.
pack_names() {
    local library=$work/librenamer1/usr/$multiarch/librenamer.so.1 names=$work/names
    objcopy --only-keep-debug "$library" "$names"
    xz --threads=1 "$names"
    strip --strip-unneeded --remove-section=.comment --remove-section=.note "$library"
    objcopy --add-section ".gnu_debugdata=$names.xz" "$library"
}

# What the programs and libraries among some files want.
wanted() {
    (cd -- "$work" && dpkg-shlibdeps -O "$@" 2> /dev/null) | sed 's/^shlibs:Depends=//'
}

# The paragraphs of all packages, each of which begins with its name.
paragraphs() {
    cat << END
Package: renamer
Architecture: amd64
Depends: $program_wants
Recommends: renamer-tools
Suggests: renamer-doc, librenamer-dev
Multi-Arch: foreign
Section: utils
Description: tight one-shot renaming service on counting networks
 Gives the clients of a batch the names 0 to k-1, each once, and shows counting
 networks and how clients walk through them. Each function of the program is
 proved to meet its contract.

Package: renamer-tools
Architecture: all
Depends: renamer (>= $version), python3 (>= 3.10)
Suggests: renamer-doc
Multi-Arch: foreign
Section: utils
Description: tools for renamer: CSV, pictures, schedules
 Adds a column of names to a CSV, draws counting networks and how clients walk
 through them, and writes random schedules.
 .
 It also has a check, which says whether what is installed works.

Package: renamer-doc
Architecture: all
Recommends: renamer
Multi-Arch: foreign
Section: doc
Description: tight one-shot renaming on counting networks, pages and sources
 Gives the clients of a batch the names 0 to k-1, each once. Each function is
 proved to meet its contract.
 .
 This package has the pages, with examples and pictures, a page that walks
 clients through a network in a browser, and the sources with their proofs.

Package: librenamer1
Architecture: amd64
Depends: $library_wants
Multi-Arch: same
Section: libs
Description: tight one-shot renaming on counting networks, shared library
 Gives clients, which threads name at once and without a lock, the names 0 to
 k-1, each once. Each function is proved to meet its contract.
 .
 This package has the shared library.

Package: librenamer-dev
Architecture: amd64
Depends: librenamer1 (= $version)
Suggests: renamer, renamer-doc
Multi-Arch: same
Section: libdevel
Description: tight one-shot renaming on counting networks, development files
 Gives clients, which threads name at once and without a lock, the names 0 to
 k-1, each once. Each function is proved to meet its contract.
 .
 This package has the archive, the headers for C and C++, manual pages of the
 calls, packages for pkg-config and CMake, the crate for Rust, and the package
 for Go.
END
}

# What Debian's help systems know of the pages.
registration() {
    cat << 'END'
Document: renamer
Title: renamer
Author: the renamer developers
Abstract: What renamer does, how it is used, and what is proved of it.
Section: Science/Mathematics

Format: HTML
Index: /usr/share/doc/renamer/docs/walk.html
Files: /usr/share/doc/renamer/docs/walk.html

Format: Text
Files: /usr/share/doc/renamer/*.md /usr/share/doc/renamer/docs/*.md
END
}

# In units of 1,024 bytes, of which each file takes whole ones.
installed_size() {
    find "$work/$1/usr" -type f -printf '%s\n' | awk '{ sum += int(($1 + 1023) / 1024) } END { print sum }'
}

control() {
    paragraphs | awk -v RS='' -v package="$1" '$2 == package'
    cat << END
Source: renamer
Version: $version
Maintainer: $maintainer
Installed-Size: $(installed_size "$1")
Priority: optional
END
}

# What Debian has elsewhere, or of its own.
settle_for_debian() {
    local library=$work/librenamer1 program=$work/renamer/usr crate=$work/librenamer-dev/usr/share/renamer/rust
    sed -i "s|^prefix=.*|prefix=/usr|; s|^libdir=.*|libdir=\${prefix}/$multiarch|" \
        "$work/librenamer-dev/usr/$multiarch/pkgconfig/renamer.pc"
    mv -- "$program/share/zsh/site-functions" "$program/share/zsh/vendor-completions"
    # These lead to files of a processor.
    mkdir -p -- "$program/share/doc/renamer"
    mv -- "$work/renamer-doc/usr/share/doc/renamer"/{out,renamer} "$program/share/doc/renamer"
    ln -sfn -- "../../../../$multiarch" "$program/share/doc/renamer/out/lib"
    # What is for a processor stands below lib.
    rm -r -- "${crate:?}/lib/$arm"
    ln -sf -- "../../../../../$multiarch/librenamer.a" "$crate/lib/x86_64-unknown-linux-gnu"
    mkdir -- "$work/renamer-doc/usr/share/doc-base"
    registration > "$work/renamer-doc/usr/share/doc-base/renamer-doc.renamer"
    printf 'librenamer 1 librenamer1\n' > "$library/DEBIAN/shlibs"
    printf 'activate-noawait ldconfig\n' > "$library/DEBIAN/triggers"
    mkdir -p -- "$work/debian"
    printf 'Source: renamer\n\nPackage: librenamer1\nArchitecture: any\n' > "$work/debian/control"
    # It fails if the library has other calls than the file.
    (cd -- "$work" && dpkg-gensymbols -plibrenamer1 -v"$version" "-P$library" -c4 \
        "-I$root/bindings/c/librenamer1.symbols" "-O$library/DEBIAN/symbols")
}

make_packages() {
    local package architecture
    # Who made the first commit, since the last one is now by this one and now by that.
    maintainer=$(git -C "$root" log --max-parents=0 --format='%an <%ae>' | tail -n 1)
    cp -R -- "$tree" "$work/rest"
    for package in "${PACKAGES[@]}"; do
        fill "$package"
        add_papers "$package"
    done
    pack_names
    settle_for_debian
    program_wants=$(wanted "$work/renamer/usr/bin/renamer")
    library_wants=$(wanted "$work/librenamer1/usr/$multiarch/librenamer.so.1")
    for package in "${PACKAGES[@]}"; do
        control "$package" > "$work/$package/DEBIAN/control"
        architecture=$(sed -n 's/^Architecture: //p' "$work/$package/DEBIAN/control")
        (cd -- "$work/$package" && find usr -type f -print0 | sort -z | xargs -0 md5sum > DEBIAN/md5sums)
        settle "$work/$package"
        # What xz makes depends on how many threads it has.
        dpkg-deb --root-owner-group -Zgzip --build "$work/$package" "$made/${package}_${version}_$architecture.deb" \
            > /dev/null
    done
}
