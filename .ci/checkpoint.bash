# The tests of examples/checkpoint: sourced by .ci/mpi, which has what they use.
stores=$out/checkpoints
plain=$PWD/$out/checkpoint
layered=$PWD/$out/checkpoint-layered

has_libcrypto() { printf '#include <openssl/evp.h>\n' | "$cc" -x c -fsyntax-only - 2>/dev/null; }

warnings='-Wconversion -Wsign-conversion'
build_checkpoint() { quietly make -C examples/checkpoint CFLAGS="$strict $warnings" flags="$flags" OUT="$plain"; }
# with a layer that decides the order of messages, and where a process is killed
build_layered() {
    # shellcheck disable=SC2086
    quietly make -C examples/checkpoint CFLAGS="$strict $warnings $sanitized" OUT="$layered" \
        layer=../../tests/mpi/checkpoint.c \
        flags="-Wl,--wrap=vejgodat_receive_set,--wrap=write,--wrap=fsync,--wrap=rename $flags"
}
build_cuts() {
    # shellcheck disable=SC2086
    quietly mpicc -std=c99 $strict $warnings -o $out/cuts tests/mpi/cuts.c examples/checkpoint/model.c \
        examples/mpi/exchange.c $flags
}

# started SECONDS RANKS COMMAND..: as on of .ci/mpi, but faster: one rank alone starts without mpirun, and others use ob1 without
# a look at what else there is to send by; these tests start some eighty runs
started() {
    local seconds=$1 ranks=$2
    shift 2
    if [ "$ranks" -eq 1 ]; then
        OMPI_MCA_pml=ob1 OMPI_MCA_ess_singleton_isolated=1 timeout -k 5 "$seconds" "$@" </dev/null 2>&1
    else
        OMPI_MCA_pml=ob1 timeout -k 5 "$seconds" mpirun --oversubscribe -n "$ranks" "$@" </dev/null 2>&1
    fi
}

name_of() { printf 'step-%08d' "$1"; }

# as_cut STORE STEP RANKS ROWS|COLUMNS: the step is one of so many ranks, and each part is the cut of the whole mesh
as_cut() {
    local cuts=$stores/cuts manifest
    manifest=$1/$(name_of "$2")
    rm -rf "$cuts" && mkdir "$cuts" && $out/cuts "$3" "$2" "$cuts" "$4" &&
        diff <(cd "$cuts" && sha256sum -- * | awk '{ print $2, $1 }') <(awk '$1 == "rank" { print $2, $4 }' "$manifest") &&
        grep -qx "ranks $3" "$manifest" && grep -qx "parts $4" "$manifest"
}

# restarts STORE STEP RANKS ROWS|COLUMNS: the step is loaded, and the one after it stored by so many ranks, each part as cut
restarts() { quietly started 60 "$3" "$plain" restart "$1" && as_cut "$1" $(($2 + 1)) "$3" "$4"; }

# as_many_as_differ STORE: its files are the manifests and the parts that they name, each part once, with its own fingerprint
as_many_as_differ() (
    LC_ALL=C
    cd "$1" && diff <(printf '%s\n' *) <({ awk '$1 == "rank" { print $4 }' step-*; printf '%s\n' step-????????; } | sort -u) &&
        sha256sum [0-9a-f]* | awk '$1 != $2 { print "another fingerprint: " $2; bad = 1 } END { exit bad }'
)

# two_orders RANKS OTHERS: a run on RANKS and a restart on OTHERS leave the same files in two orders of arrival
two_orders() {
    local order said it
    for order in 1 2; do
        it=$stores/order$order
        said=$(export ORDER=$order; started 60 "$1" "$layered" run "$it" 5 && started 60 "$2" "$layered" restart "$it") ||
            { printf '%s\n' "$said"; return 1; }
        grep '^orders=' <<<"$said" >"$it.orders"
    done
    diff -r $stores/order1 $stores/order2 && as_many_as_differ $stores/order1 || return 1
    # of the run and of the restart
    [ "$(cat $stores/order?.orders | sort -u | wc -l)" -eq 4 ] || { printf 'the orders are the same\n'; return 1; }
}

# copy STORE: a fresh copy of a store, whose steps are 0 and 1 of 3 ranks
copy() { rm -rf "$1" && cp -r "$stores/three" "$1"; }
# print_of STORE STEP RANK: the fingerprint of a part; seal MANIFEST: give it the fingerprint that its text has now
print_of() { awk -v rank="$3" '$1 == "rank" && $2 == rank { print $4 }' "$1/$(name_of "$2")"; }
seal() {
    sed -i '/^sha256 /d' "$1"
    printf 'sha256 %s\n' "$(sha256sum <"$1" | cut -d' ' -f1)" >>"$1"
}
# poke FILE BYTE: change a byte
poke() { printf '\377' | dd of="$1" bs=1 seek="$2" conv=notrunc status=none; }

# says WORDS STORE RANKS: a restart ends with status 1 and these words, and leaves the store as it was; step 0 still loads
says() {
    local said status before
    before=$(cd "$2" && sha256sum -- *)
    said=$(started 60 "$3" "$layered" restart "$2")
    status=$?
    [ $status -eq 1 ] && [[ $said == *"$1"* ]] && [ "$before" = "$(cd "$2" && sha256sum -- *)" ] &&
        quietly started 60 1 "$layered" restart "$2" 0 && as_cut "$2" 1 1 rows ||
        { printf 'status %d\n%s\n' $status "$said"; return 1; }
}
damaged() {
    local it=$stores/damaged file
    copy "$it" && file=$(print_of "$it" 1 2) || return 1
    # a byte of tree data, which no check but the fingerprint sees
    poke "$it/$file" 90
    says "rank 0: $it/$file: part of rank 2: damaged, its fingerprint is $(sha256sum <"$it/$file" | cut -d' ' -f1)" "$it" 2
}
missing() {
    local it=$stores/missing file
    copy "$it" && file=$(print_of "$it" 1 1) || return 1
    rm "$it/$file" && says "rank 0: $it/$file: part of rank 1: No such file or directory" "$it" 1
}
# a part that isn't sound, under its right fingerprint
unsound() {
    local it=$stores/unsound file manifest new
    copy "$it" && file=$(print_of "$it" 1 2) || return 1
    manifest=$it/$(name_of 1)
    poke "$it/$file" 64
    new=$(sha256sum <"$it/$file" | cut -d' ' -f1)
    mv "$it/$file" "$it/$new"
    sed -i "s/$file/$new/" "$manifest"
    seal "$manifest"
    says "rank 0: $it/$new: part of rank 2: record 0, face" "$it" 1
}
# a manifest that gives rank 2 the part of rank 1
swapped() {
    local it=$stores/swapped file manifest
    copy "$it" && file=$(print_of "$it" 1 1) || return 1
    manifest=$it/$(name_of 1)
    sed -i "s/$(print_of "$it" 1 2)/$file/" "$manifest"
    seal "$manifest"
    says "rank 0: $it/$file: part of rank 2: rank not the one given: 1, due 2" "$it" 1
}
# cut_short BYTES WORDS: a manifest with so many bytes less
cut_short() {
    local it=$stores/short
    copy "$it" && truncate -s "-$1" "$it/$(name_of 1)" && says "rank 0: $it/$(name_of 1): $2" "$it" 1
}
changed() {
    local it=$stores/changed
    copy "$it" && sed -i 's/^dimension 3/dimension 2/' "$it/$(name_of 1)" &&
        says "rank 0: $it/$(name_of 1): manifest cut short or changed" "$it" 1
}
later() {
    local it=$stores/later
    copy "$it" && sed -i 's/^release .*/release 999999/' "$it/$(name_of 1)" && seal "$it/$(name_of 1)" &&
        says "rank 0: $it/$(name_of 1): written by release 999999, this is " "$it" 1
}
# a run doesn't begin where there are steps already, and changes nothing there
occupied() {
    local it=$stores/occupied said
    copy "$it"
    ! said=$(started 60 2 "$layered" run "$it" 3) && [[ $said == *"$it: has steps already, up to 1"* ]] &&
        diff -r "$it" $stores/three || { printf '%s\n' "$said"; return 1; }
}

# killed RANKS RANK POINTS OLD: a restart on RANKS ranks, of which RANK is killed before one of its POINTS calls of write, fsync
# and rename, each in turn. In the first OLD of these runs step 1 is still the last one, and loads; in the others step 2 is.
killed() {
    local it=$stores/killed at said
    for ((at = 1; at <= $3; at++)); do
        copy "$it"
        # bash tells of a killed process on standard error; mpirun sometimes hangs when it is to end the others
        { KILL_RANK=$2 KILL_AT=$at started 10 "$1" "$layered" restart "$it" >/dev/null; } 2>/dev/null
        [[ $? =~ ^(137|124)$ ]] || { printf 'not killed at %d\n' $at; return 1; }
        said=$(started 60 1 "$plain" restart "$it") || { printf 'killed at %d: %s\n' $at "$said"; return 1; }
        if [ $at -le "$4" ]; then
            [[ $said == *'step 1 of 3 ranks is loaded'* ]] && as_cut "$it" 2 1 rows
        else
            [[ $said == *"step 2 of $1 ranks is loaded"* ]] && as_cut "$it" 3 1 rows
        fi || { printf 'killed at %d: %s\n' $at "$said"; return 1; }
    done
    copy "$it"
    KILL_RANK=$2 KILL_AT=$at quietly started 60 "$1" "$layered" restart "$it"
}

checkpoints() {
    local ranks=1 step=2 next
    mkdir -p $stores
    test_of 'checkpoint: the example builds' build_checkpoint
    test_of 'checkpoint: the example builds on a layer' build_layered
    test_of 'checkpoint: the driver that cuts builds' build_cuts
    # every pair of 1, 2, 3, 5 and 8 ranks, one restart after the other
    test_of 'checkpoint: a run on 1 rank' quietly started 60 1 "$plain" run $stores/pairs 2
    for next in 1 2 1 3 1 5 1 8 2 2 3 2 5 2 8 3 3 5 3 8 5 5 8 8 1; do
        test_of "checkpoint: $ranks ranks stored it, $next load it" restarts $stores/pairs $step $next rows
        ranks=$next
        step=$((step + 1))
    done
    test_of 'checkpoint: as many files as different parts' as_many_as_differ $stores/pairs
    test_of 'checkpoint: a run by columns' quietly started 60 3 "$plain" run $stores/columns 1 columns
    test_of 'checkpoint: a restart by columns' restarts $stores/columns 1 2 columns
    test_of 'checkpoint: two orders of arrival, the same files' two_orders 5 3
    test_of 'checkpoint: a run on 3 ranks' quietly started 60 3 "$plain" run $stores/three 1
    test_of 'checkpoint: a damaged part' damaged
    test_of 'checkpoint: a missing part' missing
    test_of 'checkpoint: a part that is not sound' unsound
    test_of 'checkpoint: a part of another rank' swapped
    test_of 'checkpoint: a changed manifest' changed
    test_of 'checkpoint: a manifest of a later release' later
    test_of 'checkpoint: a run where steps are stored already' occupied
    test_of 'checkpoint: a manifest without its last byte' cut_short 1 'manifest cut short or changed'
    test_of 'checkpoint: a manifest without its last ranks' cut_short 200 'manifest cut short or changed'
    test_of 'checkpoint: a manifest without its ranks' cut_short 330 'no manifest, or one cut short'
    test_of 'checkpoint: a run that is killed at each write, sync and rename' killed 1 0 8 7
    test_of 'checkpoint: a run of 2 ranks, the second killed at each' killed 2 1 4 4
}
