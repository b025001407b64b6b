#!/usr/bin/env bash
# Each examples/NAME/RUN.sch is run on examples/NAME/NAME.tap with the words of RUN.settings, or none, writes RUN.out and
# ends with RUN.status, or 0; each text that is run is accepted; and where there is a NAME.check, check writes this. No proof
# says what a file on the disk holds, nor what standard output takes.
. tests/lib/cases.sh

for schedule in examples/*/*.sch; do
    name=$(basename "$(dirname "$schedule")")
    run=${schedule%.sch}
    status=0
    [ -f "$run.status" ] && status=$(cat "$run.status")
    settings=()
    [ -f "$run.settings" ] && read -ra settings <"$run.settings"
    writes "$status" "$run.out" world "examples/$name/$name.tap" "$schedule" "${settings[@]}"
done
for text in examples/*/*.tap; do
    ls "$(dirname "$text")"/*.sch >/dev/null 2>&1 && accepts "$text"
    [ -f "${text%.tap}.check" ] && writes 0 "${text%.tap}.check" check "$text"
done
finish
