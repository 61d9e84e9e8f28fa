#!/usr/bin/env bash
# Tests the tools of tools/, outside the gate: tests/tools.sh [PROGRAM [COUNT]]. Where PROGRAM, or else the proved program
# where it stands built (./slicer builds it), has the command `check`, it must say what tools/check_proof.py says, on each
# example, on the worked text of docs/FORMATS.md with its changes, and on COUNT proof texts of random models with a byte, a
# number, a line or more changed at random: 10,000, or 2,000 for the tools alone. The tools alone take about a minute, and
# the program some minutes.
set -u
cd "$(dirname "$0")/.." || exit 1
work=$(mktemp -d)
trap 'rm -rf "$work"' EXIT
program=${1-crates/slicer/out/slicer}
status=0

fail() {
    echo "tools: $1" >&2
    status=1
}

python3 tests/tools_documents.py || fail "the documents' texts"

has_check=
said=$("$program" check examples/halves.mps examples/halves.report 2>"$work/err")
[ "$said" = "REJECTED Head 1" ] && has_check=1
[ -n "$has_check" ] || echo "tools: no program that checks at $program: the tools are tested alone" >&2
count=${2-$([ -n "$has_check" ] && echo 10000 || echo 2000)}

# Each example with the proof that stands beside it, or else with one that is made here.
for model in examples/*.mps; do
    options=()
    [[ $model == *_fixed.mps ]] && options=(--fixed)
    proof=${model%.mps}.proof
    if [ ! -f "$proof" ]; then
        proof=$work/proof
        python3 tests/make_proof.py "${options[@]}" "$model" >"$proof" || fail "no proof of $model"
    fi
    said=$(python3 tools/check_proof.py "${options[@]}" "$model" "$proof") || fail "$model: $said"
    [ "$said" = "ACCEPTED $(head -n 2 "${model%.mps}.report" | grep -v '^POINT\|^NODES')" ] || fail "$model has another report: $said"
    python3 tests/make_proof.py --plain "${options[@]}" "$model" >"$work/plain"
    for drawn in "$proof" "$work/plain" "$work/plain --depth 0" "$work/plain --depth 1"; do
        # shellcheck disable=SC2086
        python3 tools/draw_proof.py "${options[@]}" "$model" $drawn >"$work/tree.svg" &&
            python3 tests/read_picture.py <"$work/tree.svg" || fail "$model: no good picture of $drawn"
    done
    python3 tools/to_vipr.py "${options[@]}" "$model" "$proof" >"$work/vipr" &&
        python3 tests/read_vipr.py <"$work/vipr" >"$work/said" || fail "$model: no certificate"
    if [ -n "$has_check" ] && [ "$("$program" check "${options[@]}" "$model" "$proof")" != "$said" ]; then
        fail "$model: the program says otherwise"
    fi
done

# Certificates that prove nothing: a bound that is too good, no split, another multiplier, an end that is missing.
python3 tests/make_proof.py examples/boxes_43.mps >"$work/proof"
python3 tools/to_vipr.py examples/boxes_43.mps "$work/proof" >"$work/vipr"
for change in 's/^\(step7 L\) 5/\1 4/' 's/^\(step14 .*\) 12 6 /\1 12 5 /' 's/DER 29/DER 28/; $d' \
    's/uns 14 13 16 15/uns 14 13 14 13/' 's/^row0 E 43/row0 E 44/' 's/RTP infeas/RTP range 1 1/'; do
    sed "$change" "$work/vipr" >"$work/changed"
    cmp -s "$work/vipr" "$work/changed" && fail "$change changes nothing"
    python3 tests/read_vipr.py <"$work/changed" >"$work/said" && fail "a certificate is verified with $change"
done

# The worked text, whole and with a change on one line, over its model and over others.
printf 'SLICER 1\nOPTIMAL 4 0\nS T 2 0 1:1\nB Z-20:3 0:5 8:2\nA Z-20:1 2:5 8:6\nDONE\n' >"$work/worked"
if [ -n "$has_check" ]; then
    for change in '' '4s/0:5/0:6/' '4s/0:5/0:05/' '4s/0:5/0:0/' '4s/-20/-21/' '2s/.*/OPTIMAL 3 1/' '2s/.*/INFEASIBLE/' '2s/.*/OPTIMAL 4 1/' \
        '2s/.*/OPTIMAL +4 0/' '2s/.*/OPEN/' '3s/2 0/2 1/' 5d '6d' '$a\\' 1d '3s/1:1/2:1/' '3s/T/Q/' '4s/$/ /' '4s/.*/B/'; do
        sed "$change" "$work/worked" >"$work/changed"
        for model in examples/two_constraints.mps examples/halves.mps examples/boxes_44.mps; do
            [ "$("$program" check "$model" "$work/changed")" = "$(python3 tools/check_proof.py "$model" "$work/changed")" ] ||
                fail "the program says otherwise of the worked text with '$change' over $model"
        done
    done
fi

python3 tests/changed_proofs.py --count "$count" ${has_check:+--against "$program"} || fail "changed proofs"

[ $status = 0 ] && echo "tools: all is as it should be${has_check:+, and $program says the same}"
exit $status
