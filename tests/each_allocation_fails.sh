#!/usr/bin/env bash
# Makes each allocation of two runs of the program fail in turn, outside the gate: some ten seconds for each. One run solves a model,
# the other makes a market. Every run must end with 8 (want of memory) and say NOMEMORY, since the say itself takes no memory, or
# with 10 (no words) and say nothing, or with the status and the whole report of the run without a failure, where the program did
# without that memory. Ten runs of that last kind in a row show that no allocation is left.
set -u
cd "$(dirname "$0")/../crates/slicer" || exit 1

# The status and the report of the run without a failure, and then its words.
fail_each() {
    local ends=$1 whole=$2 said status in_a_row=0 n
    shift 2
    for ((n = 1; in_a_row < 10; n++)); do
        said=$(rt try --fail-alloc "$n" --data m=data/m -- "$@" 2>&1)
        status=$(sed -n 's/^checked: ended status=//p' <<<"$said")
        if [[ $status == 8 && $said == NOMEMORY$'\n'allocations* ]] || [[ $status == 10 && $said == allocations* ]]; then
            in_a_row=0
        elif [[ $status == "$ends" && $said == "$whole"* ]]; then
            in_a_row=$((in_a_row + 1))
        else
            printf '%s: allocation %d:\n%s\n' "$*" "$n" "$said"
            exit 1
        fi
    done
    echo "$*: each of $((n - 1 - in_a_row)) allocations failed in turn"
}

fail_each 0 "$(cat stdout)" solve m p
fail_each 1 $'MARKET 2 3 1\nINFEASIBLE\nNODES 1\nPLAIN 0' market 2 3 1 q p
