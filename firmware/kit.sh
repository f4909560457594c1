# What firmware/archive.sh, firmware/test.sh and the scripts of tests/ share: what the kit proves and builds, and C with the kit's own compiler over the archive. Read in with `.` at the top.
kit=${RATTLE_HOME:-$(dirname "$(rt doc)")}
made=target/firmware
mkdir -p $made/include

archive() { # proves and builds the archive: target/staticlib/libfirmware.a, for every x86-64 processor
    # Rattle's own compiler takes the floats of a row in vectors, as its build by LLVM does not.
    (cd crates/firmware_c && "$kit/bin/rt" lib --backend rattle --cpu=x86-64) </dev/null >$made/log 2>&1 || { cat $made/log; exit 1; }
    mkdir -p target/staticlib
    cp crates/firmware_c/out/libfirmware_c.a target/staticlib/libfirmware.a
}
built() { # NAME: proves and builds the program of crates/NAME: target/bin/NAME
    # The kit runs what it has built, here on nothing.
    (cd "crates/$1" && "$kit/bin/rt" run) </dev/null >$made/log 2>&1 || grep -q "^rt: running out/$1;" $made/log || { cat $made/log; exit 1; }
    mkdir -p target/bin
    cp "crates/$1/out/$1" "target/bin/$1"
}

# The kit has no C headers: these declare what the files here use, and nothing else.
cat >$made/include/stdint.h <<'H'
typedef __UINT8_TYPE__ uint8_t;
typedef __UINT16_TYPE__ uint16_t;
typedef __UINT32_TYPE__ uint32_t;
typedef __UINT64_TYPE__ uint64_t;
H
cat >$made/include/stddef.h <<'H'
#ifndef NULL
typedef __SIZE_TYPE__ size_t;
#define NULL ((void *)0)
#endif
H
cat >$made/include/stdio.h <<'H'
#include <stddef.h>
typedef struct file FILE;
extern FILE *stdin, *stdout, *stderr;
size_t fread(void *, size_t, size_t, FILE *);
size_t fwrite(const void *, size_t, size_t, FILE *);
int fputs(const char *, FILE *);
int printf(const char *, ...);
int fflush(FILE *);
H

compile() { # LANGUAGE STANDARD FILE WORDS..
    language=$1 standard=$2 file=$3; shift 3
    "$kit/toolchain/bin/clang" --target=x86_64-linux-gnu -x "$language" "-std=$standard" -ffreestanding -isystem $made/include \
        -fPIE -O2 -pedantic -Wall -Wextra -Werror -fsanitize=undefined -fsanitize-trap=undefined "$file" "$@"
}
program() { # NAME FILE: builds $made/NAME over the archive
    compile c c99 "$2" -Ifirmware -c -o $made/$1.o
    "$kit/bin/rattle-link" --target x86_64-unknown-linux-gnu --toolchain "$kit/toolchain" -o $made/$1 $made/$1.o \
        target/staticlib/libfirmware.a 2>>$made/log || { cat $made/log; exit 1; }
}
guarded() { # WHAT COMMAND..: the command does WHAT, and has to die of it: of the fault SIGSEGV, which is status 139, and of nothing else
    what=$1; shift
    status=0; ("$@"; exit $?) >$made/beyond 2>&1 || status=$?
    [ $status -eq 139 ] || { echo "$what, and the run ends with $status and not with the fault, 139:"; sed -n l $made/beyond; exit 1; }
}
