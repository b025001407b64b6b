#!/usr/bin/env bash
# A text of one byte more than a text may have is refused for that, whatever it holds; one of as many bytes as it may
# have is read. The proofs speak of stores in memory; this is a file.
. tests/lib/cases.sh

for command in check print; do
    head -c 1048576 /dev/zero >"$folder/text"
    says 1 'refused L1 1:1' "$command" "$folder/text"
    head -c 1 /dev/zero >>"$folder/text"
    says 1 'refused L0 1:1' "$command" "$folder/text"
    head -c 104857600 /dev/zero >"$folder/text"
    says 1 'refused L0 1:1' "$command" "$folder/text"
done
says 1 'refused L0 1:1' world "$folder/text" examples/counter/empty.sch
says 1 'refused L0 1:1' check /dev/zero
finish
