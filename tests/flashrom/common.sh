# Sourced by session.sh and chip, at the repository's root: the program, proved, and how a test says what came of it. FULKIBONO_PORT chooses the port. All that is
# made goes to target/flashrom/.
set -eu
for tool in flashrom socat rt; do
    command -v "$tool" >/dev/null || { echo "$0 needs $tool, which is not installed"; exit 2; }
done
root=$PWD
out=$root/target/flashrom
port=${FULKIBONO_PORT:-14747}
known='SST26VF016B(A)'
rm -rf "$out"
mkdir -p "$out"
tests/program programmer >"$out/check.txt" 2>&1 || { cat "$out/check.txt"; exit 1; }

# the program is code for x86-64; on another processor the kit's emulator runs it
words=$root/target/bin/programmer
if [ "$(uname -m)" != x86_64 ]; then
    tools=$(cd "$(dirname "$(rt doc)")/.." && pwd -P)/on/$(uname -m)/toolchain
    words="$tools/bin/qemu-x86_64 $tools/lib/ld-linux-x86-64.so.2 --library-path $tools/lib $words"
fi
mkdir -p "$out/target/bin"
printf '#!/bin/sh\nexec %s "$@"\n' "$words" >"$out/target/bin/programmer"
chmod +x "$out/target/bin/programmer"
programmer() { "$out/target/bin/programmer" "$@"; }

# until the socat that was started listens
listens() {
    turns=0
    until grep -q 'listening on' "$out/socat.log" 2>/dev/null; do
        turns=$((turns + 1))
        [ $turns -lt 100 ] || { echo "socat does not listen on port $port"; exit 2; }
        sleep 0.1
    done
}

said() { printf '%-52s %s\n' "$1" "$2"; }
passes() {
    what=$1
    shift
    if "$@"; then said "$what" ok; else said "$what" FAILED; exit 1; fi
}
fails() {
    what=$1
    shift
    if "$@"; then said "$what" FAILED; exit 1; else said "$what" ok; fi
}

ff() { head -c "$1" /dev/zero | tr '\000' '\377'; }
