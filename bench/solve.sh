#!/usr/bin/env bash
# Runs `solve` and `check` on drawn models (solve_models.py) and prints for each: the answer, NODES, PLAIN, seconds of `solve`, what
# `check` says and its seconds; then for each group how many models, how many of them were solved, the median and the most NODES, the
# sum of PLAIN, and the seconds of both commands. Another program takes the place of `./slicer` by SLICER=name, and words before its
# command by SLICER="name words"; the budget of nodes is NODES (1000); with words, only models whose names match the first one.
# It works in a temporary folder.
set -euo pipefail
top=$(cd "$(dirname "$0")/.." && pwd)
work=$(mktemp -d)
trap 'rm -rf "$work"' EXIT

read -r -a slicer <<<"${SLICER:-$top/slicer}"
nodes=${NODES:-1000}
pattern=${1:-.}

python3 "$top/bench/solve_models.py" "$work"
# The first call may build the program.
"${slicer[@]}" solve "$top/examples/even_sum.mps" "$work/first.proof" >"$work/said" ||
    [ $? -le 2 ] || { cat "$work/said"; exit 1; }

# Runs the words; the report goes into said, and the seconds into seconds.
seconds=
timed() {
    local start=$EPOCHREALTIME end
    "$@" >"$work/said" || true
    end=$EPOCHREALTIME
    seconds=$(awk -v a="$start" -v b="$end" 'BEGIN { printf "%.3f", b - a }')
}

field() {
    awk -v name="$1" '$1 == name { print $2 }' "$work/said"
}

printf '%-22s %-12s %6s %6s %9s  %-22s %9s\n' model answer NODES PLAIN solve check seconds
for model in "$work"/*.mps; do
    name=$(basename "$model" .mps)
    grep -q -- "$pattern" <<<"$name" || continue
    timed "${slicer[@]}" solve --nodes "$nodes" "$model" "$work/proof"
    answer=$(head -n 1 "$work/said")
    worked=$(field NODES)
    plain=$(field PLAIN)
    solved=$seconds
    verdict=-
    seconds=0
    if [ "$answer" = OPTIMAL ] || [ "$answer" = INFEASIBLE ]; then
        timed "${slicer[@]}" check "$model" "$work/proof"
        verdict=$(head -n 1 "$work/said")
    fi
    printf '%-22s %-12s %6s %6s %9s  %-22s %9s\n' "$name" "$answer" "${worked:--}" "${plain:--}" "$solved" "$verdict" "$seconds"
    echo "${name%.*} $answer ${worked:-0} ${plain:-0} $solved $seconds $verdict" >>"$work/all"
done

[ -e "$work/all" ] || { echo "no model matches"; exit 1; }
printf '\n%-22s %6s %6s %8s %6s %6s %6s %9s %9s\n' group models solved accepted median most PLAIN solve check
sort -k1,1 -k3,3n "$work/all" | awk '
    function out() {
        if (count) printf "%-22s %6d %6d %8d %6d %6d %6d %9.3f %9.3f\n", group, count, solved, accepted, nodes[int((count + 1) / 2)], nodes[count], plain, first, second
    }
    $1 != group { out(); group = $1; count = solved = accepted = plain = first = second = 0 }
    {
        nodes[++count] = $3
        plain += $4; first += $5; second += $6
        solved += $2 == "OPTIMAL" || $2 == "INFEASIBLE"
        accepted += $7 == "ACCEPTED"
    }
    END { out() }'
