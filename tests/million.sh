#!/usr/bin/env bash
# A schedule of 1,000,000 lines is run to its end, and one line more is a bad line. The bound is proved; that such a
# run ends in the memory of a plain machine is not.
. tests/lib/cases.sh

yes 'arrive a b' | head -n 1000000 >"$folder/schedule"
{ yes void | head -n 1000000; printf 'var a k 0\nvar b seen 0\nend\n'; } >"$folder/trace"
writes 0 "$folder/trace" world examples/ping/ping.tap "$folder/schedule"
for line in 'arrive a b' 'no event' ''; do
    { yes 'arrive a b' | head -n 1000000; echo "$line"; } >"$folder/schedule"
    { yes void | head -n 1000000; echo 'bad line 1000001'; } >"$folder/trace"
    writes 3 "$folder/trace" world examples/ping/ping.tap "$folder/schedule"
done
finish
