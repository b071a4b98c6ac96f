#!/usr/bin/env bash
# Puts the library for C in place, or takes it away:
#   install.sh FOLDER PREFIX [PLACE]     libraries, headers, pkg-config files and man page for PREFIX, below PLACE (or else below PREFIX
#                                        itself), and below share/neddwyrol the examples in C, the Rust crates and the Python module.
#                                        FOLDER has libneddwyrol.a and libneddwyrol_table.a
#   install.sh --remove PLACE
# The pkg-config files name the static library: what is linked by them starts wherever PREFIX is.
set -euo pipefail
here=$(cd "$(dirname "$0")" && pwd)
from=$1 prefix=$2 to=${3-$2}
abi=$(sed -n 's/^#define ND_ABI //p' "$here/include/neddwyrol.h")
version=$(< "$here/../VERSION")
if [[ $from == --remove ]]; then
    rm -f "$to"/include/neddwyrol{,_table}.h "$to"/lib/libneddwyrol{,_table}.a "$to/lib/libneddwyrol.so" "$to/lib/libneddwyrol.so.$abi" \
        "$to"/lib/libneddwyrol.so.[0-9]*.[0-9]*.[0-9]* "$to"/lib/pkgconfig/neddwyrol{,_table}.pc "$to/share/man/man3/neddwyrol.3"
    rm -rf "$to/share/neddwyrol"
    for it in share/man/man3 share/man share lib/pkgconfig lib include ''; do
        [[ ! -d $to/$it ]] || rmdir --ignore-fail-on-non-empty "$to${it:+/$it}"
    done
    exit 0
fi

# described NAME WORDS REQUIRES: a pkg-config file.
described() {
    cat << END
prefix=$prefix
libdir=\${prefix}/lib
includedir=\${prefix}/include

Name: $1
Description: $2
Version: $version
${3:+Requires: $3
}Libs: \${libdir}/lib$1.a
Cflags: -I\${includedir}
END
}

for it in neddwyrol neddwyrol_table; do
    install -D -m 644 "$here/include/$it.h" "$to/include/$it.h"
    install -D -m 644 "$from/lib$it.a" "$to/lib/lib$it.a"
done
bash "$here/shared.sh" "$from/libneddwyrol.a" "$to/lib"
mkdir -p "$to/lib/pkgconfig"
described neddwyrol 'The bandwidth accounting of Linux SCHED_DEADLINE (GRUB), proved' '' > "$to/lib/pkgconfig/neddwyrol.pc"
described neddwyrol_table 'The table of Neddwyrol that threads share without a lock, proved' neddwyrol > "$to/lib/pkgconfig/neddwyrol_table.pc"
install -D -m 644 "$here/../docs/neddwyrol.3" "$to/share/man/man3/neddwyrol.3"
(cd "$here" && find c python rust rust_table -type f ! -path '*/target/*' ! -path '*/__pycache__/*' ! -name Cargo.lock) | while read -r it; do
    install -D -m 644 "$here/$it" "$to/share/neddwyrol/$it"
done
