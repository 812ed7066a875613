#!/bin/sh
# Counts the x86-64 instructions of one call, of the shipped object and of the C programs beside it, at all shapes or at those named:
# instructions.sh [m,k,b ...]
# The program runs under Debian's qemu, with a plugin that counts. Two runs of five calls and of one differ by four calls. The processor is
# Nehalem, for on a later one the C library copies by an instruction that qemu counts once for each byte.
# BENCH_ROOT names the repository if it is not the folder above this one.
set -eu
here=$(cd "$(dirname "$0")" && pwd)
root=${BENCH_ROOT:-$(dirname "$here")}
out=$root/target/bench
mkdir -p "$out"

missing=
for package in gcc libc6-dev qemu-user; do
    dpkg -s "$package" >/dev/null 2>&1 || missing="$missing $package"
done
if [ -n "$missing" ]; then
    apt-get update >/dev/null
    # shellcheck disable=SC2086
    apt-get install -y --no-install-recommends $missing >/dev/null
fi

clang=$(dirname "$(rt doc)")/toolchain/bin/clang
[ -x "$clang" ] || { echo "instructions.sh: no clang in the kit" >&2; exit 2; }
OARWILLOW_ROOT=$root "$here/../install/build" x86-64 >&2

objects=
for file in instructions own plain registers; do
    object=$out/$file.x86_64.o
    "$clang" --no-default-config --target=x86_64-unknown-linux-gnu -O3 -Wall -Wextra -isystem "$(cc -print-file-name=include)" \
        -isystem /usr/include/x86_64-linux-gnu -isystem /usr/include -I "$root/include" -c "$here/$file.c" -o "$object"
    objects="$objects $object"
done
program=$out/instructions
# shellcheck disable=SC2086
cc -static $objects "$root/target/install/x86-64/liboarwillow.a" -o "$program"

# Runs the program and prints how many instructions that took.
counted() { # WORDS
    : >"$out/count"
    qemu-x86_64 -cpu Nehalem -plugin "$out/counter.so" -d plugin -D "$out/count" "$program" "$@" >"$out/said" 2>&1 </dev/null || return 1
    grep -x '[0-9][0-9]*' "$out/count"
}
# The plugin interface has numbers, and a qemu takes some of them.
for api in 1 2 3 4 5 6 7 8 none; do
    [ "$api" != none ] || { echo "instructions.sh: qemu does not take the plugin: $(cat "$out/said")" >&2; exit 1; }
    cc -O2 -Wall -Wextra -shared -fPIC -DAPI="$api" "$here/counter.c" -o "$out/counter.so"
    if counted >/dev/null; then break; fi
done
cp "$out/said" "$out/list"

asked() { # SHAPE SHAPES-ASKED-FOR
    [ $# -gt 1 ] || return 0
    wanted=$1
    shift
    for name; do
        [ "$name" != "$wanted" ] || return 0
    done
    return 1
}
one_call() { # CONTESTANT
    case " $contestants " in
    *" $1 "*)
        five=$(counted "$shape" "$op" "$1" 5)
        one=$(counted "$shape" "$op" "$1" 1)
        echo $(((five - one + 2) / 4))
        ;;
    *) echo - ;;
    esac
}
ratio() { # THEIRS OURS
    if [ "$1" = - ]; then echo -; else awk "BEGIN { printf \"%.2f\", $1 / $2 }"; fi
}

awk '!seen[$2]++ { print $2 }' "$out/list" | while read -r shape; do
    asked "$shape" "$@" || continue
    qemu-x86_64 -cpu Nehalem "$program" "$shape" </dev/null
    echo "$shape: bytes equal" >&2
done

echo "library:  liboarwillow.a, the shipped object"
echo "compiler: $("$clang" --version | head -n 1), -O3, x86-64 baseline, of plain and registers"
echo "counted:  by $(qemu-x86_64 --version | head -n 1), -cpu Nehalem"
echo "x86-64 instructions of one call, and theirs divided by ours (above 1: ours takes fewer); - : no such operation there."
echo "intact is locate of an intact stripe, locate that of one with a byte wrong in every cell of a column; making it wrong is not counted."
echo "blank and blank-loc are check and locate of a blank stripe; change is of a cell that is not on the diagonal of S, change-s of one that is; the choice of the cell is counted."
echo "changes, changes-append and changes-s are of 256 cells in one call: of any, of cells that follow each other, and of those on the diagonal of S."
echo "write is of the image of a stripe with every column present, and walk goes over it from place 0 to its end, k + 3 calls."
format='%-14s %-13s %11s %11s %11s %11s %11s\n'
# shellcheck disable=SC2059
printf "$format" '' m,k,b ours plain registers plain/ours regs/ours
while read -r op shape contestants; do
    asked "$shape" "$@" || continue
    ours=$(one_call ours) plain=$(one_call plain) registers=$(one_call registers)
    # shellcheck disable=SC2059
    printf "$format" "$op" "$shape" "$ours" "$plain" "$registers" "$(ratio "$plain" "$ours")" "$(ratio "$registers" "$ours")"
done <"$out/list"
