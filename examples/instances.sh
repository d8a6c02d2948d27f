#!/bin/sh
# Solves each text of a folder with a program, once where trials end after the most steps and once where they end at new
# states, and prints a table. What stands behind the folder are options of `solve`; WORKERS is how many workers there
# are (1).
#
#     examples/instances.py FOLDER && examples/instances.sh ./ppddl_plan FOLDER --gap 0.1
set -eu
[ $# -ge 2 ] || { echo "usage: examples/instances.sh PROGRAM FOLDER [OPTION ..]" >&2; exit 2; }
program=$(cd "$(dirname "$1")" && pwd)/$(basename "$1")
folder=$2
shift 2
certificate=$(mktemp)
trap 'rm -f "$certificate" "$certificate".*' EXIT

# The cells of a row for one of the two ends: how it ended, the states, the rounds, and the seconds by the clock.
cells() {
    ends=$1
    text=$2
    shift 2
    begun=$(date +%s.%N)
    report=$("$program" solve "$text" --cert "$certificate" --workers "${WORKERS:-1}" --states 262144 --ends "$ends" "$@") || [ $? -eq 1 ]
    ended=$(date +%s.%N)
    echo "$report" | awk -v seconds="$(echo "$ended $begun" | awk '{ print $1 - $2 }')" '
        NR == 1 { closed = $1 == "converged" ? "closed" : ($2 == "table-full" ? "full" : "open") }
        $1 == "states" { states = $2 }
        $1 == "rounds" { rounds = $2 }
        END { printf " %s | %s | %s | %.2f |", closed, states, rounds, seconds }'
}

echo '| Text | To the depth | States | Rounds | Seconds | To new states | States | Rounds | Seconds |'
echo '|---|---|---|---|---|---|---|---|---|'
for text in "$folder"/*.ppddl; do
    printf '| `%s` |' "$(basename "$text" .ppddl)"
    cells depth "$text" "$@"
    cells new "$text" "$@"
    echo
done
