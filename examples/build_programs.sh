#!/usr/bin/env bash
# Builds the examples in C by stock clang and lld, all of them or those that are named: build_programs.sh [NAME..]
set -eu
cd "$(dirname "${BASH_SOURCE[0]}")"
[ $# -gt 0 ] || set -- *.c
for name in "$@"; do
  name=${name%.c}
  clang --target=mips-linux-gnu -mips32r2 -mabi=32 -msoft-float -mno-abicalls -fno-pic -G 0 -ffreestanding -fno-ident -O2 \
    -Wall -Wextra -Werror -nostdlib -static -fuse-ld=lld -Wl,--build-id=none -s -o "$name" "$name.c"
done
