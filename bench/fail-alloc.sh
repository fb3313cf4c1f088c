#!/bin/sh
# Lets each allocation of the built program fail in turn, over the shops of examples/, a missing file, an import, and a source that is refused by each
# phase: each run must end with 6, nothing on the standard error and at most a prefix of the image, or with the right status, text and image.
# Needs cc and glibc, and the program, which `./winrt --prove` builds; else the one that `./winrt` builds without its proofs. It says which.
top=$(CDPATH='' cd -- "$(dirname -- "$0")/.." && pwd) || exit 1
program=$top/crates/winrt/out/winrt
if [ -x "$program" ]; then
    echo "the proved program"
else
    program=$top/crates/winrt/out/unproved/winrt
    [ -x "$program" ] || { echo "bench/fail-alloc.sh: build the program first, by ./winrt --prove, or by ./winrt" >&2; exit 1; }
    echo "the program that is built without its proofs"
fi
room=$(mktemp -d) || exit 1
trap 'rm -rf "$room"' EXIT
cd "$room" || exit 1

# The FAIL_ALLOC-th allocation answers that there is no memory. Where it didn't come, the file `past` is made.
cat >fail.c <<'END'
#include <errno.h>
#include <fcntl.h>
#include <stdlib.h>
#include <unistd.h>
void *__libc_malloc(size_t);
void *__libc_realloc(void *, size_t);
static long left;
__attribute__((constructor)) static void begin(void) { left = atol(getenv("FAIL_ALLOC")); }
__attribute__((destructor)) static void end(void) { if (left > 0) close(open("past", O_CREAT | O_WRONLY, 0666)); }
static int fails(void) { if (left > 0 && --left == 0) { errno = ENOMEM; return 1; } return 0; }
void *malloc(size_t size) { return fails() ? 0 : __libc_malloc(size); }
void *realloc(void *old, size_t size) { return fails() ? 0 : __libc_realloc(old, size); }
END
cc -O1 -shared -fPIC -o fail.so fail.c || exit 1
cp "$top/examples/shop.idl" "$top/examples/all.idl" "$top"/examples/faults/*.idl . || exit 1
cp "$top/examples/whole-shop/shop.idl" whole.idl || exit 1

# Whether the image is there after a 6 and is no prefix of the one that is wanted.
is_other() {
    [ -e image ] && ! { [ -e want ] && head -c "$(wc -c <image)" want | cmp -s - image; }
}

failed=0
for source in shop.idl whole.idl all.idl missing.idl lexing.idl syntax.idl names.idl synthesis.idl rules.idl limits.idl; do
    rm -f image want past
    "$program" midl -o image "$source" 2>want_text
    want=$?
    [ -e image ] && mv image want
    n=0 answered=0
    while [ ! -e past ]; do
        n=$((n + 1))
        rm -f image
        FAIL_ALLOC=$n LD_PRELOAD=$room/fail.so "$program" midl -o image "$source" 2>text
        status=$?
        if [ "$status" -eq 6 ] && [ ! -s text ] && ! is_other; then
            continue
        fi
        answered=$((answered + 1))
        if [ "$status" -ne "$want" ] || ! cmp -s text want_text ||
            { [ "$want" -eq 0 ] && ! cmp -s image want; } || { [ "$want" -ne 0 ] && [ -e image ]; }; then
            echo "$source: allocation $n: status $status" >&2
            failed=1
        fi
    done
    echo "$source: status $want; $((n - 1)) allocations, of which $((n - answered)) end with 6 where they fail"
done
exit "$failed"
