#!/usr/bin/env bash
# soak counts what world writes: on the text of make, with the same seed, the trace has as many lines of each kind; and the
# same words give the same bytes. The proofs say what both write; this runs them on files.
. tests/lib/cases.sh

system=examples/abp/abp.tap

"$TAPC" soak $system 1 200000 1000 a.last=1000 >"$folder/first"
holds $? 'soak of 200,000 events ends well'
"$TAPC" soak $system 1 200000 1000 a.last=1000 | cmp -s - "$folder/first"
holds $? 'a second soak writes the same bytes'
[ "$(head -n 1 "$folder/first")" = 'events 200000' ]
holds $? 'its first line is that of the events'

count() { # count WORD: how many lines of the trace begin with the word
    grep -c "^$1\( \|\$\)" "$folder/trace"
}

for run in "3 2000 200" "4 500 0" "5 1000 1000" "18446744073709551615 300 20" "6 0 0"; do
    read -r seed events faults <<<"$run"
    "$TAPC" make $system "$seed" "$events" "$faults" >"$folder/schedule"
    holds $? "make with $run"
    [ "$(wc -l <"$folder/schedule")" -eq "$events" ]
    holds $? "make with $run writes a line for each event"
    "$TAPC" world $system "$folder/schedule" a.last=1000 "seed=$seed" >"$folder/trace"
    holds $? "world on what make wrote with $run"
    {
        echo "events $events"
        echo "acts $(count act)"
        echo "sents $(count sent)"
        echo "rejects $(count reject)"
        echo "idles $(count idle)"
        echo "voids $(count void)"
        grep '^var ' "$folder/trace"
        echo end
    } >"$folder/counts"
    writes 0 "$folder/counts" soak $system "$seed" "$events" "$faults" a.last=1000
    says 0 run replay $system "$folder/trace" a.last=1000
done
finish
