#!/bin/bash
# install_library.sh PREFIX [LIBRARY.a]: puts the headers, the library with its heap, and a pkg-config file under the prefix. Without a library it
# has `rt lib` prove and build that of crates/tracesmb_c.
set -e
prefix=$(realpath -m "${1:?the prefix to install to}")
library=${2:+$(realpath "$2")}
cd "$(dirname "$0")/.."
if [ -z "$library" ]; then
    (cd crates/tracesmb_c && rt lib)
    library=crates/tracesmb_c/out/libtracesmb_c.a
fi
mkdir -p "$prefix/include" "$prefix/lib/pkgconfig"
work=$(mktemp -d)
trap 'rm -rf "$work"' EXIT
${CC:-cc} -std=c11 -O2 -c -o "$work/heap.o" examples/c/heap.c
cp "$library" "$work/libtracesmb.a"
${AR:-ar} r "$work/libtracesmb.a" "$work/heap.o" 2> /dev/null
cp include/tracesmb.h include/tracesmb_events.h "$prefix/include/"
cp "$work/libtracesmb.a" "$prefix/lib/"
cat > "$prefix/lib/pkgconfig/tracesmb.pc" <<END
prefix=$prefix
libdir=\${prefix}/lib
includedir=\${prefix}/include

Name: tracesmb
Description: The writers and the service of a trace
Version: 1
Cflags: -I\${includedir}
Libs: -L\${libdir} -ltracesmb
END
echo "installed into $prefix"
