#!/usr/bin/env bash
# Runs the program on the example logs and on files that are no logs, and compares what it prints and its status with what is stored.
# Usage: scripts/try-program.sh [--write]    (with --write, what it prints is stored)
set -euo pipefail
cd "$(dirname "$0")/.."
./hefnwyrad > /dev/null
scratch=$(mktemp -d)
trap 'rm -r "$scratch"' EXIT
head -c 65537 /dev/zero > "$scratch/too-long.deps"
head -c 15 examples/tiny.deps > "$scratch/fifteen.deps"
: > "$scratch/empty.deps"
python3 - "$scratch/over.deps" <<'P'
import struct, sys
name = b"n" * 121 + b"\0" * 3
open(sys.argv[1], "wb").write(b"# ninjadeps\n" + struct.pack("<II", 4, len(name) + 4) + name + struct.pack("<I", 0xFFFFFFFF))
P
program=$PWD/crates/hefnwyrad/out/hefnwyrad
examples=$PWD/examples
cp examples/*.deps "$scratch"
one() {
    echo "\$ hefnwyrad $*"
    local status=0
    "$program" "$@" 2>&1 || status=$?
    echo "status $status"
}
all() (
    cd "$scratch"
    one
    one paint
    one dump tiny.deps extra
    for log in tiny cut ninja empty fifteen over too-long missing; do
        one dump "$log.deps"
    done
    one dump .
    one find tiny.deps a.o
    one find tiny.deps a.c
    one find tiny.deps b.o
    one find cut.deps a.o
    one find ninja.deps laser.o
    one find missing.deps a.o
    one find fifteen.deps a.o
    one find tiny.deps ''
    cp tiny.deps noted.deps
    one note noted.deps a.o 9 a.c
    stat -c '%s bytes' noted.deps
    one note noted.deps a.o 9 a.c
    stat -c '%s bytes' noted.deps
    one find noted.deps a.o
    one note noted.deps a.o soon a.c
    one note noted.deps a.o 9 ''
    one recompact noted.deps
    stat -c '%s bytes' noted.deps
    one recompact noted.deps
    one find noted.deps a.o
    one dump noted.deps
    cp cut.deps shortened.deps
    one recompact shortened.deps
    one dump shortened.deps
    one recompact fifteen.deps
    one recompact unmade.deps
    stat -c '%s bytes' unmade.deps
    cp ninja.deps compacted.deps
    one recompact compacted.deps
    one find compacted.deps laser.o
    cp cut.deps mended.deps
    one note mended.deps a.o 7 a.c ab.h
    cmp mended.deps tiny.deps && echo "the tail is dropped, and the note stands"
    one note new.deps a.o 7 a.c ab.h
    cmp new.deps tiny.deps && echo "a new log has the bytes of the example"
    mkdir held && one note held a.o 7 a.c
    one note held/none/new.deps a.o 7 a.c
    one note fifteen.deps a.o 7 a.c
    ls ./*.draft 2>/dev/null || echo "no temporary file is left"
    cmp tiny.deps "$examples/tiny.deps" && cmp cut.deps "$examples/cut.deps" && echo "the logs are as they were"
)
if [ "${1:-}" = --write ]; then
    all > examples/expected
else
    all | diff examples/expected - && echo "the program prints what is stored"
fi
