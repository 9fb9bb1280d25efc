# What the stages of outside tests share: sourced by them, from the repository's top.
PATH=$PATH:$HOME/.cargo/bin
export DEBIAN_FRONTEND=noninteractive

passed=0
failed=0
archive=target/lib/libvejgodat.a
cc=${CC:-cc}

# test_of NAME COMMAND..: one test; it passes where the command's status is 0
test_of() {
    local name=$1
    shift
    if "$@"; then
        printf 'ok      %s\n' "$name"
        passed=$((passed + 1))
    else
        printf 'FAILED  %s\n' "$name"
        failed=$((failed + 1))
    fi
}

# fetch PACKAGE..: by apt-get, with fresh lists where it doesn't go without; one stage at a time
fetch() {
    local log
    command -v apt-get >/dev/null || return
    log=$(mktemp)
    mkdir -p target
    {
        flock 9
        apt-get install -y "$@" || { apt-get update && apt-get install -y "$@"; }
    } 9>target/fetch.lock </dev/null >"$log" 2>&1 || tail -n 5 "$log"
    rm -f "$log"
    hash -r
}

# need COMMAND [PACKAGE..]: the command is there, or is after its packages are installed; else that counts as failed
need() {
    local command=$1
    shift
    command -v "$command" >/dev/null && return
    if [ $# -gt 0 ]; then
        printf '%s is missing: apt-get install -y %s\n' "$command" "$*"
        fetch "$@"
        command -v "$command" >/dev/null && return
    fi
    printf 'FAILED  %s is missing and was not installed\n' "$command"
    failed=$((failed + 1))
}

# the stage ends here, with its line of counts
counts() {
    printf '%d passed, %d failed\n' "$passed" "$failed"
    [ "$failed" -eq 0 ]
    exit
}

# whether the archive is there and newer than every source
fresh_archive() {
    [ -f "$archive" ] && [ -z "$(find crates.txt crates/*/src crates/*/specs crates/*/proofs c include -newer "$archive" -print -quit)" ]
}

# the archive as make install puts it, proved and built from the sources as they stand
need_archive() {
    local log
    log=$(mktemp)
    if ! { tools/prove vejgodat && make; } >"$log" 2>&1 || [ ! -f "$archive" ]; then
        cat "$log"
        printf 'FAILED  tools/prove vejgodat, or make\n'
        failed=$((failed + 1))
    fi
    rm -f "$log"
}
