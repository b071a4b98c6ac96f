#!/usr/bin/env bash
# Makes the shared library of the static one: shared.sh LIBRARY FOLDER. Its soname goes with ND_ABI of the header.
set -euo pipefail
here=$(cd "$(dirname "$0")" && pwd)
abi=$(sed -n 's/^#define ND_ABI //p' "$here/include/neddwyrol.h")
version=$(< "$here/../VERSION")
"${CC:-cc}" -shared -nostdlib -Wl,-soname,"libneddwyrol.so.$abi" -Wl,-z,defs -Wl,-z,noexecstack -o "$2/libneddwyrol.so.$version" \
    -Wl,--whole-archive "$1" -Wl,--no-whole-archive
ln -sf "libneddwyrol.so.$version" "$2/libneddwyrol.so.$abi"
ln -sf "libneddwyrol.so.$abi" "$2/libneddwyrol.so"
