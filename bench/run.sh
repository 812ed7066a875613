#!/bin/sh
# Builds the benchmark and prints its table, of all shapes or of those named: run.sh [m,k,b ...]
# It measures the shipped object, on x86-64, for which the kit is.
# BENCH_ROOT names the repository if it is not the folder above this one; OARWILLOW_OBJECT an object or archive to link instead.
set -eu
here=$(cd "$(dirname "$0")" && pwd)
root=${BENCH_ROOT:-$(dirname "$here")}
out=$root/target/bench
mkdir -p "$out"

missing=
for package in gcc libc6-dev libisal-dev libjerasure-dev libgf-complete-dev; do
    dpkg -s "$package" >/dev/null 2>&1 || missing="$missing $package"
done
if [ -n "$missing" ]; then
    echo "run.sh: installs what is missing, by Debian's packages:$missing" >&2
    apt-get update >/dev/null
    # shellcheck disable=SC2086
    apt-get install -y $missing >/dev/null
fi

machine=$(uname -m)
[ "$machine" = x86_64 ] || { echo "run.sh: this machine is $machine, and the kit is for x86-64" >&2; exit 2; }
clang=$(dirname "$(rt doc)")/toolchain/bin/clang
[ -x "$clang" ] || { echo "run.sh: no clang in the kit" >&2; exit 2; }

library=$root/target/install/x86-64/liboarwillow.a
if [ -n "${OARWILLOW_OBJECT:-}" ]; then
    library=$OARWILLOW_OBJECT
    label="$OARWILLOW_OBJECT, given by hand (not the shipped object)"
else
    OARWILLOW_ROOT=$root "$here/../install/build" x86-64 >&2
    label="liboarwillow.a, the shipped object"
fi

jerasure=$(dirname "$(dpkg -L libjerasure-dev | grep '/liberation.h$')")
objects=
for file in contest own rivals plain registers; do
    object=$out/$file.o
    "$clang" --target="$machine-unknown-linux-gnu" -O3 -Wall -Wextra -isystem "$(cc -print-file-name=include)" -isystem "$jerasure" \
        -I "$root/include" -c "$here/$file.c" -o "$object"
    objects="$objects $object"
done
# shellcheck disable=SC2086
cc $objects "$library" -lisal -lJerasure -lgf_complete -o "$out/contest"

echo "library:  $label"
echo "compiler: $("$clang" --version | head -n 1), -O3, $machine baseline"
echo "machine:  $(lscpu | sed -n 's/^Model name: *//p' | head -n 1)"
taskset -c "${BENCH_CPU:-0}" "$out/contest" "$@"
