#!/usr/bin/env bash
# What stands in examples/NAME/TEXT.canonical is printed of TEXT.tap. The proofs say that the canonical text is printed;
# these are texts whose canonical form was written down by hand.
. tests/lib/cases.sh

for canonical in examples/*/*.canonical; do
    writes 0 "$canonical" print "${canonical%.canonical}.tap"
done
finish
