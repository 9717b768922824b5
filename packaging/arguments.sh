# For ./install and ./uninstall: what they are told. Before this file is read, `stop TEXT` ends the script and `usage` prints how
# the script is called.

# read_arguments [--no-tool] [--libdir DIR] PREFIX: sets tool, prefix, libdir and root. --no-tool leaves the tool and its manual
# page out. DIR is from the prefix on, such as lib64, or absolute; it is lib by itself. libdir is from the prefix on where it lies
# below it. root is DESTDIR, for packagers: all files stand below it, and none of them says so.
read_arguments() {
    tool=yes
    libdir=lib
    while [[ ${1:-} == -* ]]; do
        case $1 in
            --help | -h) usage; exit 0 ;;
            --no-tool) tool=no ;;
            --libdir=?*) libdir=${1#*=} ;;
            --libdir) [ -n "${2:-}" ] || stop "--libdir needs a folder"; libdir=$2; shift ;;
            *) stop "no such option: $1 (--help says which there are)" ;;
        esac
        shift
    done
    [ $# -eq 1 ] && [ -n "$1" ] || return 1
    prefix=$(realpath -m -- "$1")
    root=${DESTDIR:+$(realpath -m -- "$DESTDIR")}
    [[ $libdir == /* ]] || libdir=$prefix/$libdir
    libdir=$(realpath -m -- "$libdir")
    libdir=${libdir#"${prefix%/}/"}
}

# at PLACE: the whole path of a file of packaging/installed.sh
at() {
    case $1 in
        /*) echo "$1" ;;
        *) echo "${prefix%/}/$1" ;;
    esac
}
