#!/bin/bash
# Explores the models of the threads, of the kit's queue and of the kit's parker with spin: every interleaving, at the
# sizes given here. docs/THREADS.md says what each run shows.
#
# usage: explore.sh                  all runs, $JOBS at a time, as many as there are processors where it isn't given
#        explore.sh NAME..           these runs
#        explore.sh --trail NAME     the counterexample that this run found, step by step
#
# A run passes where it finds no error, or, if the model is broken on purpose or an assumption is left out, the error that
# has to come. Prints a row for each run: processor seconds (of the exploring alone) and memory. Ends with status 1 where
# a run doesn't pass, and with 2 where spin or gcc isn't installed. What each run printed is left in the folder out/
# beside this script, or in $OUT.
here=$(cd "$(dirname "$0")" && pwd)
out=${OUT:-$here/out}
jobs=${JOBS:-$(nproc)}
most_megabytes=1500

for tool in spin gcc; do
    if ! command -v "$tool" > /dev/null; then
        echo "$tool isn't installed (Debian: apt-get install spin gcc)"
        exit 2
    fi
done

# Nothing can move, or an assertion fails; and the property of this name fails in a cycle, under weak fairness.
safe() { echo "-DSAFETY -DNOCLAIM|-m1000000 -w22"; }
live() { echo "-DNFAIR=2|-a -f -N $1 -m1000000 -w22"; }

# name | what has to come: none, or a part of the error | model | its defines | of the verifier | its options
runs() {
    # What holds.
    echo "small|none|threads|-DMOST=2|$(safe)"
    echo "middle|none|threads|-DINBOX=2 -DOUTBOX=2 -DKEPT=2 -DMOST=0|$(safe)"
    echo "window|none|threads|-DKEPT=0 -DWINDOW=2 -DMOST=3|$(safe)"
    echo "requests|none|threads|-DKEPT=0 -DMOST=0 -DREQUESTS=2|$(safe)"
    echo "numbers|none|threads|-DMOST=0 -DNUMBERS=3|$(safe)"
    echo "silent|none|threads|-DKEPT=0 -DCLOSES -DSILENT|$(safe) -E"
    echo "stalls|none|threads|-DKEPT=0 -DSTALLS|$(safe) -E"
    echo "unheard|none|threads|-DKEPT=0 -DUNHEARD|$(safe) -E"
    echo "bound|none|threads|-DINBOX=2 -DKEPT=0 -DNO_WRITER -DBOUND|$(safe)"
    echo "pause|none|threads|-DKEPT=0 -DNO_WRITER -DCLOSES -DFAIR=1|$(live pause)"
    echo "quits|none|threads|-DKEPT=0 -DNO_WRITER -DCLOSES|$(live quits)"
    echo "fails|none|threads|-DKEPT=0 -DNO_WRITER -DCLOSES|$(live fails)"
    echo "ends|none|threads|-DKEPT=0 -DNO_WRITER -DCLOSES -DFAIR=1|$(live ends)"
    echo "channel|none|channel||$(safe)"
    echo "channel-of-2|none|channel|-DCAP=2|$(safe)"
    echo "channel-ends|none|channel||$(live ends)"
    echo "parker|none|parker||$(safe) -E"
    # What doesn't hold without an assumption.
    echo "stalls-hangs|assertion violated served|threads|-DKEPT=0 -DSTALLS -DHANGS|$(safe)"
    echo "unheard-hangs|assertion violated served|threads|-DKEPT=0 -DUNHEARD -DHANGS|$(safe)"
    echo "pause-unfair|acceptance cycle|threads|-DKEPT=0 -DNO_WRITER -DCLOSES|$(live pause)"
    echo "ends-unfair|acceptance cycle|threads|-DKEPT=0 -DNO_WRITER -DCLOSES|$(live ends)"
    # Broken on purpose: the orders.
    echo "no-unpark|assertion violated served|threads|-DNO_UNPARK|$(safe)"
    echo "unparks-first|assertion violated served|threads|-DUNPARKS_FIRST|$(safe)"
    echo "loses-hold|acceptance cycle|threads|-DKEPT=0 -DNO_WRITER -DCLOSES -DFAIR=1 -DLOSES_HOLD|$(live pause)"
    echo "three-orders|&&quitting|threads|-DORDERS=3|$(safe)"
    echo "no-try-quit|assertion violated served|threads|-DNO_TRY_QUIT|$(safe)"
    # The inbox and the outbox.
    echo "keeps-at-end|assertion violated|threads|-DKEEPS_AT_END|$(safe)"
    echo "no-wake-at-leave|assertion violated served|threads|-DNO_WAKE_AT_LEAVE|$(safe)"
    echo "keeps-last|(keeps)|threads|-DKEEPS_LAST|$(safe)"
    echo "ignores-refusal|(is_gone)|threads|-DIGNORES_REFUSAL|$(safe)"
    echo "writer-stays|assertion violated served|threads|-DWRITER_STAYS|$(safe)"
    echo "reads-on|(handed_back)|threads|-DREADS_ON|$(safe)"
    echo "no-mark|assertion violated served|threads|-DNO_MARK|$(safe)"
    # The window.
    echo "no-window|(late<=|threads|-DINBOX=2 -DKEPT=0 -DNO_WRITER -DBOUND -DNO_WINDOW|$(safe)"
    echo "not-let-out|Runner._p==outside|threads|-DKEPT=0 -DCLOSES -DSILENT -DNO_LET_OUT|$(safe) -E"
    echo "no-ring|Runner._p==outside|threads|-DKEPT=0 -DCLOSES -DSILENT -DNO_RING|$(safe) -E"
    echo "rings-first|Runner._p==outside|threads|-DKEPT=0 -DCLOSES -DSILENT -DRINGS_FIRST|$(safe) -E"
    echo "lets-out-late|Runner._p==outside|threads|-DKEPT=0 -DCLOSES -DSILENT -DLETS_OUT_LATE|$(safe) -E"
    echo "not-opened|assertion violated served|threads|-DNO_OPEN|$(safe)"
    echo "opens-late|assertion violated served|threads|-DOPENS_LATE|$(safe)"
    # Its end.
    echo "gives-up-no-quit|assertion violated served|threads|-DGIVES_UP_NO_QUIT|$(safe)"
    echo "gives-up-no-mark|assertion violated served|threads|-DGIVES_UP_NO_MARK|$(safe)"
    echo "tells-late|told|threads|-DKEPT=0 -DCLOSES -DSILENT -DTELLS_LATE|$(safe) -E"
    # The kit's queue and parker.
    echo "channel-not-counted|invalid end state|channel|-DNOT_COUNTED|$(safe)"
    echo "channel-no-compare|invalid end state|channel|-DNO_COMPARE|$(safe)"
    echo "channel-wakes-one|invalid end state|channel|-DWAKES_ONE_AT_LEAVE|$(safe)"
    echo "parker-no-compare|assertion violated|parker|-DNO_COMPARE|$(safe) -E"
    echo "parker-no-wake|assertion violated|parker|-DNO_WAKE|$(safe) -E"
}

# The runs that were asked for.
chosen() {
    if [ $# = 0 ]; then
        runs
    else
        for name in "$@"; do runs | grep "^$name|" || echo "$name|none|no-such-run|||"; done
    fi
}

# How much gcc optimizes: it pays only where all states are explored.
level() { if [ "$1" = none ]; then echo -O2; else echo -O0; fi; }

# Explores one line of the list, and writes its row.
explore() {
    IFS='|' read -r name expected model defines flags options <<< "$1"
    mkdir -p "$out/$name" && cd "$out/$name" && rm -f ./* && cp "$here/$model.pml" .
    # shellcheck disable=SC2086
    if spin $defines -a "$model.pml" > spin.log 2>&1 &&
        gcc "$(level "$expected")" -w $flags -DMEMLIM=$most_megabytes -o pan pan.c > gcc.log 2>&1; then
        TIMEFORMAT=%U
        { time ./pan $options > pan.log 2>&1; } 2> seconds
    fi
    rm -f pan pan.? pan.pre
    states=$(sed -n 's/^ *\([0-9.e+]*\) states, stored.*/\1/p' pan.log 2> /dev/null)
    memory=$(sed -n 's/^ *\([0-9.]*\)\ttotal actual memory usage.*/\1/p' pan.log 2> /dev/null)
    found=$(sed -n 's/^pan:1: \(.*\) (at depth.*/\1/p' pan.log 2> /dev/null)
    verdict=WRONG
    if [ "$expected" = none ]; then
        grep -q "errors: 0" pan.log 2> /dev/null && ! grep -q "not completed\|too small" pan.log && verdict=ok
    else
        case "$found" in *"$expected"*) verdict=ok ;; esac
    fi
    printf '%-20s %-5s %10s %6.0f %6s  %s\n' "$name" $verdict "${states:--}" "${memory:-0}" "$(cat seconds 2> /dev/null)" "${found:-no error}" > row
}

if [ "$1" = --trail ]; then
    IFS='|' read -r name _ model defines _ < <(runs | grep "^$2|")
    cd "$out/$name" || exit 1
    # shellcheck disable=SC2086
    exec spin $defines -t -p -g "$model.pml"
fi

mkdir -p "$out"
while read -r line; do
    while [ "$(jobs -rp | wc -l)" -ge "$jobs" ]; do wait -n; done
    explore "$line" &
done < <(chosen "$@")
wait

printf '%-20s %-5s %10s %6s %6s  %s\n' run "" states MB s found
wrong=0
while IFS='|' read -r name _; do
    cat "$out/$name/row"
    grep -q "^[^ ]* *ok " "$out/$name/row" || wrong=1
done < <(chosen "$@")
times > "$out/times"
echo "processor time, with spin and gcc: $(sed -n '2s/ .*//p' "$out/times")"
exit $wrong
