# For the scripts that compare with the original: where it is, and how a program is built with it and with our archive. They
# run in the repository's root and source this file.

# The folder of the original: its sources, as tests/oracle/build takes them, or a program `build` that makes the same of its own.
oracle=${CQDB_ORACLE:-../shared/oracle}

oracle_found() {
    [ -x "$oracle/build" ] || [ -f "$oracle/cqdb-rs/src/lib.rs" ]
}

# The unchanged Rust as a library, and a C build of lookup3, below target/oracle.
build_original() {
    if [ -x "$oracle/build" ]; then
        "$oracle/build" target/oracle
    else
        tests/oracle/build "$oracle" target/oracle
    fi
}

# Our archive, below target/staticlib.
build_archive() {
    mkdir -p target &&
        { ./make-archive >target/staticlib.log 2>&1 || { cat target/staticlib.log >&2; return 1; }; }
}

# The original, below target/oracle, and our archive.
build_both() {
    build_original && build_archive
}

# build_driver SOURCE PROGRAM [ARGUMENT..]: builds a Rust program over both, in release settings; what it is linked with besides
# stands in the arguments.
build_driver() {
    mkdir -p "$(dirname "$2")" &&
        rustc -C opt-level=3 --edition 2021 "${@:3}" -L target/oracle --extern cqdb=target/oracle/libcqdb.rlib \
            -L native=target/staticlib -l static=cqdb_c -l static=lookup3 "$1" -o "$2"
}

# build_alone SOURCE PROGRAM [ARGUMENT..]: builds a Rust program over our archive that does not ask the original; what it is
# linked with besides stands in the arguments.
build_alone() {
    mkdir -p "$(dirname "$2")" &&
        rustc -C opt-level=3 --edition 2021 "${@:3}" -L native=target/staticlib -l static=cqdb_c "$1" -o "$2"
}
