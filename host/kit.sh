# How the scripts of host/, tests/ and bench/ compile, link and run a C program with the Rattle kit alone: nothing else
# is installed or looked for. Programs are x86-64, as the kit is. To be sourced.

die() { printf '%s: %s\n' "${0##*/}" "$*" >&2; exit 1; }

# Sets home, the kit's folder, and kit, that of its compiler and C library.
kit_find() {
    command -v rt >/dev/null || die "rt, the command of the Rattle kit, is not on the PATH"
    home=$(dirname "$(rt doc)")
    kit=$home/toolchain
    [ -x "$kit/bin/clang" ] || die "the kit has no compiler at $kit/bin/clang"
}

# kit_compile SOURCE.c OBJECT FLAGS.., in the repository's folder
kit_compile() {
    source=$1 object=$2
    shift 2
    "$kit/bin/clang" --target=x86_64-unknown-linux-gnu -nostdinc -std=c11 -O2 -Wall -Wextra -Wpedantic -Werror -fPIC \
        -Iinclude "$@" -c "$source" -o "$object" || die "$source does not compile"
}

# kit_link PROGRAM OBJECT-OR-LIBRARY..
kit_link() {
    program=$1
    shift
    "$kit/bin/ld.lld" -melf_x86_64 -pie --dynamic-linker /lib64/ld-linux-x86-64.so.2 -z now -z relro -z noexecstack \
        --gc-sections -o "$program.new" "$kit/lib/Scrt1.o" "$kit/lib/crti.o" "$kit/lib/crtbeginS.o" "$@" \
        "$kit/lib/libc.so.6" "$kit/lib/libc_nonshared.a" "$kit/lib/libgcc.a" "$kit/lib/crtendS.o" "$kit/lib/crtn.o" ||
        die "$program does not link"
    mv "$program.new" "$program"
}

# kit_run PROGRAM ARGUMENTS..: in place of the calling shell.
kit_run() {
    exec "$kit/lib/ld-linux-x86-64.so.2" --library-path "$kit/lib" "$@"
}
