#!/usr/bin/env bash
# Each examples/refused/CODE_CAUSE.tap is refused by check and by world with the line in CODE_CAUSE.out. Where there is
# a CODE_CAUSE.settings, check accepts it, and world refuses these settings.
# Text and settings are judged before the schedule is opened: where that is not there, or is a folder, the answer is
# the same. The proofs speak of stores that tell what they hold, and the disk does not.
. tests/lib/cases.sh

for text in examples/refused/*.tap; do
    settings=()
    if [ -f "${text%.tap}.settings" ]; then
        read -ra settings <"${text%.tap}.settings"
        accepts "$text"
    else
        writes 1 "${text%.tap}.out" check "$text"
    fi
    for schedule in examples/counter/empty.sch examples/no-such-schedule examples; do
        writes 1 "${text%.tap}.out" world "$text" "$schedule" "${settings[@]}"
    done
done
says 4 'read fault' world examples/ping/ping.tap examples/no-such-schedule
finish
