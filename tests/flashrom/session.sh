# Sourced by run and record, at the repository's root: one process of the program, so one chip, for every run of flashrom. The program reads
# and writes named pipes that stay open; socat joins them to a loopback port anew for each run, since flashrom closes its connection.
. tests/flashrom/common.sh

# what goes in and comes out is kept in stdin and stdout
mkfifo "$out/to" "$out/from"
exec 3<>"$out/to" 4<>"$out/from"
(
    exec 3>&- 4>&-
    tee "$out/stdin" <"$out/to" | programmer --identity-of-sst26vf016b | tee "$out/stdout" >"$out/from"
) &
chip=$!
join=
trap 'exec 3>&- 4>&-; [ -z "$join" ] || kill "$join" 2>/dev/null' EXIT

# tool NAME WORDS..: one run of flashrom; what it printed is NAME.txt
tool() {
    name=$1
    shift
    socat -d -d -lf "$out/socat.log" TCP-LISTEN:"$port",bind=127.0.0.1,reuseaddr,accept-timeout=60 OPEN:"$out/from",rdonly'!!'OPEN:"$out/to",wronly 3>&- 4>&- &
    join=$!
    listens
    status=0
    flashrom -p serprog:ip=127.0.0.1:"$port" "$@" >"$out/$name.txt" 2>&1 3>&- 4>&- || status=$?
    wait "$join" || :
    join=
    rm -f "$out/socat.log"
    return $status
}

# the pipes close, and the program ends
ended() {
    exec 3>&- 4>&-
    wait "$chip"
    trap - EXIT
    if command -v python3 >/dev/null; then
        passes 'every answer is what document 01 says' tests/flashrom/check.py "$out/stdin" "$out/stdout"
    else
        echo 'python3 is not installed: the answers were not compared with document 01'
    fi
}
