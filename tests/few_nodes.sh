#!/usr/bin/env bash
# Solves a market of 3 rows and 15 columns, outside the gate, within some minutes: none of the 2^15 choices of columns meets its
# rows, and at most 50 nodes show that.
set -u
cd "$(dirname "$0")/.." || exit 1
said=$(./slicer --unproved market 3 15 1 market proof 2>/dev/null)
nodes=$(sed -n 's/^NODES //p' <<<"$said")
if [[ $said != $'MARKET 3 15 1\nINFEASIBLE\n'* ]] || ((nodes > 50)); then
    printf '%s\n' "$said"
    exit 1
fi
echo "$nodes nodes"
