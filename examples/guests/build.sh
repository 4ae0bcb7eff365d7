#!/usr/bin/env bash
# Builds a C library for the guest in a folder, and with it programs that people know:
#
#   build.sh [--compiler NAME] DIR [hello|darts|bzip2|lua|minigzip|sqlite3|speedtest1|busybox|all]..
#
# The library is musl, and the arithmetic of floating point that of glibc's soft-fp, both from Debian's source packages; so
# are the programs. DIR/bin/o32-cc then compiles and links as `cc` does, and DIR/guests has the programs, `hello` where none
# is named. DIR/bin/tree_image.py is the tool for images of examples/. The compiler is clang with lld, or mips-linux-gnu-gcc, whichever is at hand first.
# Nothing is installed, and nothing is written outside of DIR. What was fetched or built is kept there, so a second call
# goes on where the first one ended. JOBS is the number of compilers side by side, one for each processor where it is unset.
set -u
export LC_ALL=C
here=$(cd "$(dirname "${BASH_SOURCE[0]}")" && pwd)
programs=(hello darts bzip2 lua minigzip sqlite3 speedtest1 busybox)
suite=bookworm
keyring=/usr/share/keyrings/debian-archive-keyring.gpg

stop() {
  echo "build.sh: $*" >&2
  exit 1
}

# Stops unless the command $1 is at hand, which the package $2 of Debian has.
need() {
  command -v "$1" >/dev/null || stop "$1 is missing; Debian's package $2 has it"
}

usage() {
  sed -n 's/^#   build.sh/usage: build.sh/p' "${BASH_SOURCE[0]}" >&2
  exit 2
}

compiler=
[ "${1-}" != --compiler ] || { [ $# -ge 2 ] || usage; compiler=$2 && shift 2; }
case "${1-}" in '' | -*) usage ;; esac
mkdir -p "$1" 2>/dev/null || stop "the folder $1 can't be made"
dir=$(cd "$1" && pwd)
case $dir in *[[:space:]]*) stop "the path $dir has a space, which makefiles don't take" ;; esac
shift
[ $# -gt 0 ] || set -- hello
[ "$*" != all ] || set -- "${programs[@]}"
for name in "$@"; do
  case " ${programs[*]} " in *" $name "*) ;; *) stop "no program $name; there are ${programs[*]}" ;; esac
done
jobs=${JOBS:-$(nproc)}
mkdir -p "$dir"/{bin,done,downloads,guests,log,source,build,sysroot/lib} 2>/dev/null || stop "$dir can't be written"

# The line of a log that tells why a step failed.
cause() {
  if grep -Eqi 'no space left on device|enough free space' "$1"; then
    echo "no space is left on the disk of $dir"
  else
    local line
    line=$(grep -E '^E: ' "$1" | head -n 1)
    [ -n "$line" ] || line=$(grep -Ei '(error|fatal|failed):|not found|cannot|undefined' "$1" | head -n 1)
    echo "${line:-$(tail -n 1 "$1")}"
  fi
}

# step NAME TEXT FUNCTION [WORD..]: runs the function, once for all calls of this script, and says what it does and how
# long it took.
step() {
  local name=$1 text=$2 begun=$SECONDS status
  shift 2
  [ ! -e "$dir/done/$name" ] || return 0
  printf '%s: %s .. ' "$name" "$text"
  # No `||` and no `if` around it: within those a function doesn't stop at a command that fails.
  (
    set -e
    cd "$dir"
    "$@"
  ) >"$dir/log/$name" 2>&1
  status=$?
  [ "$status" = 0 ] || echo
  [ "$status" = 0 ] || stop "$name failed: $(cause "$dir/log/$name") (all of it is in $dir/log/$name)"
  : >"$dir/done/$name" || stop "no space is left on the disk of $dir"
  echo "$((SECONDS - begun)) s"
}

# Forgets the step $1 where the file $2 of this folder is newer.
renew() {
  [ ! "$here/$2" -nt "$dir/done/$1" ] || rm -f "$dir/done/$1"
}

choose_compiler() {
  if [ -z "$compiler" ]; then
    compiler=clang
    command -v clang >/dev/null || compiler=mips-linux-gnu-gcc
    command -v "$compiler" >/dev/null ||
      stop "no compiler is at hand; Debian's packages clang, lld and llvm have one, and so has gcc-mips-linux-gnu"
  fi
  case ${compiler##*/} in
  clang*)
    tools=llvm- suffix=${compiler##*/}
    suffix=${suffix#clang}
    need "$compiler" "clang$suffix"
    need "ld.lld$suffix" "lld$suffix"
    need "llvm-ar$suffix" "llvm$suffix"
    target=(--target=mips-linux-gnu -EB -mips32r2 -mabi=32 -msoft-float -fno-pic)
    linking=("-fuse-ld=$(command -v "ld.lld$suffix")" -Wno-unused-command-line-argument)
    headers=$("$compiler" -print-resource-dir)/include
    ;;
  *gcc*)
    need "$compiler" gcc-mips-linux-gnu
    tools=${compiler%gcc*} suffix=
    need "${tools}ar" binutils-mips-linux-gnu
    target=(-EB -mips32r2 -mabi=32 -msoft-float -fno-pic -no-pie)
    linking=("-Wl,-z,max-page-size=4096")
    headers=$("$compiler" -print-file-name=include)
    ;;
  *) stop "$compiler is neither a clang nor a gcc by its name" ;;
  esac
  echo 'int one = 1;' >"$dir/build/one.c" || stop "no space is left on the disk of $dir"
  "$compiler" "${target[@]}" -c -o "$dir/build/one.o" "$dir/build/one.c" 2>"$dir/log/compiler" ||
    stop "$compiler does not compile for MIPS: $(cause "$dir/log/compiler")"
  local version
  version=$("$compiler" --version | head -n 1)
  [ ! -e "$dir/compiler" ] || [ "$(<"$dir/compiler")" = "$version" ] ||
    stop "$dir was built by $(<"$dir/compiler"), and this is $version: name another folder"
  echo "$version" >"$dir/compiler" || stop "no space is left on the disk of $dir"
}

# Debian's own tool, with all that it keeps in DIR: it checks signatures and hashes, and goes on with half a file.
debian() {
  apt-get -q -o "Dir::State::Lists=$dir/downloads/lists" -o "Dir::Cache=$dir/downloads/cache" \
    -o "Dir::Etc::SourceList=$dir/downloads/sources.list" -o Dir::Etc::SourceParts=/dev/null \
    -o "APT::Sandbox::User=$(id -un)" -o APT::Update::Error-Mode=any -o Acquire::Retries=2 "$@"
}

list_of_packages() {
  mkdir -p downloads/lists/partial downloads/cache/archives/partial
  echo "deb-src [signed-by=$keyring] http://deb.debian.org/debian $suite main" >downloads/sources.list
  debian update
}

# fetched PACKAGE [FILE..]: the source of a package lies in DIR/source/PACKAGE, or of the named files alone.
fetched() {
  local package=$1
  [ ! -e "$dir/done/$package-source" ] || return 0
  need apt-get apt
  [ -e "$keyring" ] || stop "$keyring is missing; the package debian-archive-keyring has it"
  need tar tar
  need xz xz-utils
  need bzip2 bzip2
  step list "the list of Debian's source packages" list_of_packages
  step "$package-source" "fetches and unpacks it" source_of "$@"
}

source_of() {
  local package=$1
  shift
  (cd downloads && debian source --download-only --tar-only --only-source "$package")
  rm -rf "source/$package" source/part
  mkdir source/part
  tar -xf downloads/"${package}"_*.orig.tar.* -C source/part --strip-components 1 --wildcards "$@"
  mv source/part "source/$package"
}

write_compiler() {
  cat >bin/o32-cc <<CC
#!/usr/bin/env bash
# Compiles and links for o32run, as cc does. Made by build.sh.
compile=("$compiler" ${target[@]@Q} -nostdinc -isystem "$dir/sysroot/include" -isystem "$headers")
for word in "\$@"; do
  case \$word in
  -c | -S | -E | -M | -MM | -fsyntax-only) exec "\${compile[@]}" "\$@" ;;
  -r) exec "\${compile[@]}" ${linking[@]@Q} -nostdlib "\$@" ;;
  -v | --version | -dumpmachine | -print-*) [ \$# != 1 ] || exec "\${compile[@]}" "\$@" ;;
  esac
done
exec "\${compile[@]}" ${linking[@]@Q} -static -nostdlib "$dir/sysroot/lib/crt1.o" "$dir/sysroot/lib/crti.o" "\$@" \\
  -L"$dir/sysroot/lib" -Wl,--start-group -lc -lo32 -Wl,--end-group "$dir/sysroot/lib/crtn.o"
CC
  chmod +x bin/o32-cc
  ln -sf "$here/../tree_image.py" bin/tree_image.py
  local tool
  for tool in ar ranlib strip; do
    ln -sf "$(command -v "$tools$tool$suffix")" "bin/o32-$tool"
  done
}

# The arithmetic of floating point and of integers of 64 bits, libo32.a.
build_arithmetic() {
  local glibc="$dir/source/glibc" file
  rm -rf build/arithmetic
  mkdir build/arithmetic
  cd build/arithmetic
  for file in "$glibc"/soft-fp/*[ds][if]*.c; do
    case ${file##*/} in *tf* | *hf* | *xf* | *ti*) continue ;; esac
    o32-cc -O2 -w -fno-builtin -I"$glibc/soft-fp" -I"$glibc/sysdeps/mips/mips32" -I"$glibc/stdlib" -include endian.h \
      -D'strong_alias(name,other)=extern __typeof (name) other __attribute__ ((alias (#name)))' -c "$file"
  done
  o32-cc -O2 -Wall -Wextra -Werror -fno-builtin -c "$here/integers.c"
  rm -f "$dir/sysroot/lib/libo32.a"
  o32-ar rcs "$dir/sysroot/lib/libo32.a" ./*.o
}

build_musl() {
  mkdir -p build/musl
  cd build/musl
  if [ ! -e config.mak ]; then
    CC="$compiler ${target[*]}" AR=o32-ar RANLIB=o32-ranlib CFLAGS=-O2 LIBCC=' ' \
      ../../source/musl/configure --prefix="$dir/sysroot" --target=mips-linux-musl --disable-shared
  fi
  make -j "$jobs"
  make install
}

build_hello() {
  o32-cc -O2 -o guests/hello "$here/hello.c"
}

build_darts() {
  o32-cc -O2 -o guests/darts "$here/darts.c"
}

build_bzip2() {
  cd source/bzip2
  o32-cc -O2 -w -D_FILE_OFFSET_BITS=64 -o ../../guests/bzip2 bzip2.c blocksort.c huffman.c crctable.c randtable.c compress.c \
    decompress.c bzlib.c
}

build_minigzip() {
  cd source/zlib
  o32-cc -O2 -w -DHAVE_UNISTD_H -D_LARGEFILE64_SOURCE=1 -I. -o ../../guests/minigzip test/minigzip.c ./*.c
}

build_lua() {
  cd source/lua5.4/src
  local files=() file
  for file in *.c; do
    [ "$file" = luac.c ] || files+=("$file")
  done
  o32-cc -O2 -w -DLUA_COMPAT_5_3 -o ../../../guests/lua "${files[@]}" -lm
}

# The one file that SQLite's own makefile makes of all its sources.
make_sqlite() {
  rm -rf build/sqlite3
  mkdir build/sqlite3
  cd build/sqlite3
  make -f ../../source/sqlite3/Makefile.linux-gcc TOP="$dir/source/sqlite3" BCC="$host_compiler -O1 -w" NAWK=awk sqlite3.c shell.c
}

build_sqlite3() {
  cd build/sqlite3
  o32-cc -O2 -w -DSQLITE_THREADSAFE=0 -DSQLITE_OMIT_LOAD_EXTENSION -DHAVE_READLINE=0 -o ../../guests/sqlite3 shell.c sqlite3.c
}

build_speedtest1() {
  cd build/sqlite3
  o32-cc -O2 -w -DSQLITE_THREADSAFE=0 -DSQLITE_OMIT_LOAD_EXTENSION -I. -o ../../guests/speedtest1 \
    ../../source/sqlite3/test/speedtest1.c sqlite3.c
}

build_busybox() {
  local name
  cd source/busybox
  # Variables that are declared constant and set all the same, which clang does not load again.
  sed -i 's/^extern struct globals \*const ptr_to_globals/extern struct globals *ptr_to_globals/' include/libbb.h
  make HOSTCC="$host_compiler" allnoconfig
  # Without a fork there is no use for a shell.
  sed -i 's/^CONFIG_SH_IS_ASH=y/# CONFIG_SH_IS_ASH is not set/; s/^# CONFIG_SH_IS_NONE is not set/CONFIG_SH_IS_NONE=y/' .config
  sed -i 's/^CONFIG_EXTRA_CFLAGS=.*/CONFIG_EXTRA_CFLAGS="-DBB_GLOBAL_CONST="/' .config
  while read -r name; do
    sed -i "s/^# CONFIG_$name is not set\$/CONFIG_$name=y/" .config
  done <"$here/busybox.config"
  yes '' | make HOSTCC="$host_compiler" oldconfig
  make -j "$jobs" HOSTCC="$host_compiler" CC=o32-cc LD="o32-cc -r" AR=o32-ar STRIP=o32-strip SKIP_STRIP=y busybox
  cp busybox ../../guests/busybox
}

# The compiler for what a build runs on this machine itself.
choose_host_compiler() {
  host_compiler=cc
  command -v cc >/dev/null || host_compiler=clang
  need "$host_compiler" gcc
}

program() {
  case $1 in
  hello | darts) renew "$1" "$1.c" ;;
  bzip2) fetched bzip2 ;;
  lua) fetched lua5.4 ;;
  minigzip) fetched zlib ;;
  busybox)
    choose_host_compiler
    fetched busybox
    renew busybox busybox.config
    ;;
  sqlite3 | speedtest1)
    choose_host_compiler
    need tclsh tcl
    fetched sqlite3
    step sqlite3-made "makes one file of all its sources" make_sqlite
    ;;
  esac
  step "$1" "compiles the program" "build_$1"
}

need make make
choose_compiler
export PATH="$dir/bin:$PATH"
fetched musl
fetched glibc '*/soft-fp/*' '*/sysdeps/mips/mips32/sfp-machine.h' '*/stdlib/longlong.h'
step o32-cc "writes the compiler's script" write_compiler
step musl "compiles the C library" build_musl
renew arithmetic integers.c
step arithmetic "compiles the routines for floating point and 64 bits" build_arithmetic
for name in "$@"; do
  program "$name"
  echo "$dir/guests/$name"
done
