# For the gate and the scripts of tests/: a step, or a part of one, that cannot run here. They source this file.

# skip NAME WHAT WHY: says that NAME leaves out WHAT, and why. The gate counts these lines: CQDB_SKIPPED names its list.
skip() {
    echo "$1: skipped: $2: $3"
    [ -z "${CQDB_SKIPPED:-}" ] || echo "$1: $2: $3" >>"$CQDB_SKIPPED"
}
