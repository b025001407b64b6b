#!/usr/bin/env bash
# A file that is not there, a folder, and a name through a file are read faults, as the system and as the schedule.
# The proofs count a fault of the disk and cannot say when there is one.
. tests/lib/cases.sh

text=examples/ping/ping.tap
for name in examples/no-such-file examples "$text/below" "$(printf 'x%.0s' {1..5000})"; do
    says 4 'read fault' check "$name"
    says 4 'read fault' print "$name"
    says 4 'read fault' world "$name" examples/ping/ping.sch
    says 4 'read fault' world "$name" examples/no-such-file
    says 4 'read fault' world "$text" "$name"
done
# What is no plain file is read as well.
writes 0 examples/ping/ping.check check <(cat "$text")
writes 0 examples/ping/ping.out world <(cat "$text") <(cat examples/ping/ping.sch)
says 1 'refused S1 1:1' check /dev/null
writes 0 examples/counter/empty.out world examples/counter/counter.tap /dev/null
finish
