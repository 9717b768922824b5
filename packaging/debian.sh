# For packaging/release: the Debian packages libcqdb0, libcqdb-dev and cqdb, by dpkg-deb. Before this file is read: files is the
# folder of packaging/collect, work a folder for what is packed, out the folder of the release, version its version,
# SOURCE_DATE_EPOCH its time; the working folder is the repository's root.

libraries=usr/lib/x86_64-linux-gnu
maintainer="Lithwennog maintainers <maintainers@users.noreply.lithwennog.example>"

# depends FILE: the packages of the libraries that the file needs
depends() {
    packaging/needs "$1" | awk '
        $1 == "libc.so.6" { print "libc6 (>= " $2 ")" }
        $1 == "libgcc_s.so.1" { print "libgcc-s1 (>= " $2 ")" }
        $1 !~ /^(libc\.so\.6|libgcc_s\.so\.1|ld-linux-x86-64\.so\.2)$/ { print "unknown-library-" $1 }' | paste -s -d , | sed 's/,/, /g'
}

# put MODE FILE PLACE: one file of the package below $stage
put() { install -D -m "$1" -- "$2" "$stage/$3"; }

# put_zipped FILE PLACE: a manual page or a changelog, as Debian keeps them
put_zipped() {
    mkdir -p "$stage/$(dirname "$2")"
    gzip -9n <"$1" >"$stage/$2"
    chmod 644 "$stage/$2"
}

# What Debian's policy asks of every package: whose it is, and what changed.
put_documents() {
    local package=$1
    { echo "Lithwennog $version, a port to Rattle of messense/cqdb-rs."; echo; cat LICENSE; echo; cat NOTICE; } >"$work/copyright"
    put 644 "$work/copyright" "usr/share/doc/$package/copyright"
    { printf '%s (%s) unstable; urgency=medium\n\n' "$package" "$version"
      printf '  * Lithwennog %s; CHANGELOG.md of libcqdb-dev says what changed.\n\n' "$version"
      printf ' -- %s  %s\n' "$maintainer" "$(date -u -R -d "@$SOURCE_DATE_EPOCH")"; } >"$work/changelog"
    put_zipped "$work/changelog" "usr/share/doc/$package/changelog.gz"
}

# The size on the disk in KB: each file rounded up, and one for each folder.
installed_size() {
    (cd "$stage" && find usr -printf '%y %s\n') | awk '$1 == "f" { sum += int(($2 + 1023) / 1024); next } { sum++ } END { print sum }'
}

# package NAME SECTION DEPENDS SUMMARY: packs $stage; the longer description is read from standard input
package() {
    local description
    description=$(cat)
    put_documents "$1"
    mkdir -p "$stage/DEBIAN"
    {
        printf 'Package: %s\nVersion: %s\nArchitecture: amd64\nMaintainer: %s\n' "$1" "$version" "$maintainer"
        printf 'Source: lithwennog\nSection: %s\nPriority: optional\nInstalled-Size: %s\n' "$2" "$(installed_size)"
        [ -z "$3" ] || printf 'Depends: %s\n' "$3"
        [ "$1" = cqdb ] || printf 'Multi-Arch: same\n'
        printf 'Description: %s\n%s\n' "$4" "$description"
    } >"$stage/DEBIAN/control"
    (cd "$stage" && find usr -type f | LC_ALL=C sort | xargs -d '\n' md5sum) >"$stage/DEBIAN/md5sums"
    chmod 644 "$stage"/DEBIAN/*
    # one thread and gzip: the bytes depend neither on the machine's processors nor on the version of xz
    dpkg-deb --root-owner-group -Zgzip -z9 --build "$stage" "$out/${1}_${version}_amd64.deb" >/dev/null
}

debian_packages() {
    stage=$work/libcqdb0
    put 644 $files/libcqdb.so.0 $libraries/libcqdb.so.0
    mkdir -p "$stage/DEBIAN"
    echo "libcqdb 0 libcqdb0 (>= $version)" >"$stage/DEBIAN/shlibs"
    echo "activate-noawait ldconfig" >"$stage/DEBIAN/triggers"
    package libcqdb0 libs "$(depends $files/libcqdb.so.0)" "constant quark databases, proved: shared library" <<'END'
 A constant quark database maps names to ids and ids to names, in a file that
 is made once and then only read. Every function of this library is proved to
 give the answer of the format's rules, for all bytes of a file.
 .
 This package has the shared library.
END

    stage=$work/libcqdb-dev
    put 644 $files/cqdb.h usr/include/cqdb.h
    put 644 $files/libcqdb_c.a $libraries/libcqdb_c.a
    ln -s libcqdb.so.0 "$stage/$libraries/libcqdb.so"
    sed "s#@PREFIX@#/usr#; s#@LIBDIR@#\${prefix}/${libraries#usr/}#" $files/cqdb.pc.in >"$work/cqdb.pc"
    put 644 "$work/cqdb.pc" $libraries/pkgconfig/cqdb.pc
    put_zipped $files/cqdb.3 usr/share/man/man3/cqdb.3.gz
    put 644 docs/FORMAT.md usr/share/doc/libcqdb-dev/FORMAT.md
    put 644 CHANGELOG.md usr/share/doc/libcqdb-dev/CHANGELOG.md
    local example
    for example in examples/c/*.c; do put 644 "$example" "usr/share/doc/libcqdb-dev/$example"; done
    package libcqdb-dev libdevel "libcqdb0 (= $version)" "constant quark databases, proved: header, archive, manual" <<'END'
 A constant quark database maps names to ids and ids to names, in a file that
 is made once and then only read. Every function of this library is proved to
 give the answer of the format's rules, for all bytes of a file.
 .
 This package has the header, the archive, the link for the shared library,
 the pkg-config file, the manual page of the calls, and programs that use them.
END

    stage=$work/cqdb
    put 755 $files/cqdb usr/bin/cqdb
    put_zipped $files/cqdb.1 usr/share/man/man1/cqdb.1.gz
    put 644 $files/cqdb.bash usr/share/bash-completion/completions/cqdb
    put 644 docs/TOOL.md usr/share/doc/cqdb/TOOL.md
    put 644 examples/prisms.txt usr/share/doc/cqdb/examples/prisms.txt
    package cqdb database "$(depends $files/cqdb)" "make, ask and check constant quark databases" <<'END'
 A constant quark database maps names to ids and ids to names, in a file that
 is made once and then only read. This tool makes such files from lists, asks
 them, checks them and compares them, over a library whose answers are proved
 for all bytes of a file.
END
}
