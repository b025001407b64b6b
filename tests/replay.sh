#!/usr/bin/env bash
# The trace that world writes of each example is judged the trace of a run, also without its last line feed, and by no other
# system. No proof says what the files on a disk hold.
. tests/lib/cases.sh

for schedule in examples/*/*.sch; do
    name=$(basename "$(dirname "$schedule")")
    run=${schedule%.sch}
    [ -f "$run.status" ] && continue
    settings=()
    if [ -f "$run.settings" ]; then
        for word in $(cat "$run.settings"); do
            case $word in seed=*) ;; *) settings+=("$word") ;; esac
        done
    fi
    says 0 run replay "examples/$name/$name.tap" "$run.out" "${settings[@]}"
    head -c -1 "$run.out" >"$folder/trace"
    says 0 run replay "examples/$name/$name.tap" "$folder/trace" "${settings[@]}"
    head -c -4 "$run.out" >"$folder/trace"
    says 3 "bad line $(wc -l <"$run.out")" replay "examples/$name/$name.tap" "$folder/trace" "${settings[@]}"
    echo end | cat "$run.out" - >"$folder/trace"
    says 3 "bad line $(($(wc -l <"$run.out") + 1))" replay "examples/$name/$name.tap" "$folder/trace" "${settings[@]}"
done
says 3 'bad line 1' replay examples/ping/ping.tap /dev/null
says 3 'bad line 1' replay examples/ping/ping.tap "$TAPC"
says 3 'bad line 1' replay examples/ping/ping.tap examples/ping/ping.sch
# In the ring the first action of a sends 0.
says 8 'not a run: line 3' replay examples/ring/ring.tap examples/ping/ping.out
says 4 'read fault' replay examples/ping/ping.tap examples/no-such-file
says 4 'read fault' replay examples/no-such-file examples/ping/ping.out
finish
