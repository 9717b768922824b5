# For ./install and ./uninstall: the files below the prefix. Those of libdir stand elsewhere where it begins with /. libdirs has a
# line for each libdir that was installed to, for ./uninstall.
header=include/cqdb.h
archive=$libdir/libcqdb_c.a
shared=$libdir/libcqdb.so.0
link=$libdir/libcqdb.so
package=$libdir/pkgconfig/cqdb.pc
calls=share/man/man3/cqdb.3
licence=share/doc/cqdb/LICENSE
notice=share/doc/cqdb/NOTICE
libdirs=share/doc/cqdb/libdirs
program=bin/cqdb
manual=share/man/man1/cqdb.1
completions=share/bash-completion/completions/cqdb
