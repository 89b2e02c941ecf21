# Sourced by the run scripts, at the repository's root: builds the library where it is not up to date, and says how a C program with it
# is compiled and run. The library is two archives, the chip and the station list; a program that calls the station list names the second in
# `also` ($stations, by `with_stations`). Both are code for x86-64. On another processor programs are linked with the kit's C library and run by the
# kit's emulator; where FULKIBONO_OBJECT and FULKIBONO_STATIONS name the two compiled for this processor, those are used, and programs run as they are.
set -eu
out=target/run
mkdir -p "$out"
machine=$(uname -m)
library=${FULKIBONO_OBJECT:-target/staticlib/libbench.a}
stations=${FULKIBONO_STATIONS:-target/staticlib/libstation_bench.a}

if [ -z "${FULKIBONO_OBJECT:-}" ]; then tests/library bench; fi

# what a program links that calls the station list
with_stations() {
    if [ -n "${FULKIBONO_OBJECT:-}" ] && [ -z "${FULKIBONO_STATIONS:-}" ]; then
        echo "FULKIBONO_OBJECT names the chip compiled for this processor; name the station list so too, by FULKIBONO_STATIONS" >&2
        exit 2
    fi
    if [ -z "${FULKIBONO_STATIONS:-}" ]; then tests/library station_bench; fi
    also="${also:-} $stations"
}

# compile PROGRAM SOURCE [FLAGS..]: the C program with the library, and with what `also` names
# start PROGRAM [WORDS..]: runs it
if [ "$machine" = x86_64 ] || [ -n "${FULKIBONO_OBJECT:-}" ]; then
    native=yes
    compile() { p=$1 s=$2; shift 2; ${CC:-cc} -std=c99 -Wall -Wextra -pedantic -Iinclude "$@" "$s" ${also:-} "$library" -o "$p"; }
    start() { "$@"; }
else
    native=''
    kit=$(cd "$(dirname "$(rt doc)")/.." && pwd -P)
    tools=$kit/on/$machine/toolchain
    compile() {
        p=$1 s=$2
        shift 2
        ${CC:-clang} --target=x86_64-linux-gnu -idirafter "/usr/include/$machine-linux-gnu" -fPIC -std=c99 -Wall -Wextra -pedantic -Iinclude "$@" -c "$s" -o "$p.o"
        "$kit/on/$machine/bin/rattle-link" --target x86_64-unknown-linux-gnu --toolchain "$tools" -o "$p" "$p.o" ${also:-} "$library" >/dev/null 2>&1
    }
    start() { p=$1; shift; "$tools/bin/qemu-x86_64" "$tools/lib/ld-linux-x86-64.so.2" --library-path "$tools/lib" "$p" "$@"; }
fi
