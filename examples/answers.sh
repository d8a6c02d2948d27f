#!/bin/sh
# Solves each example with a program and prints the table of docs/EXAMPLES.md.
#
#     examples/answers.sh ./ppddl_plan
set -eu
[ $# -eq 1 ] || { echo "usage: examples/answers.sh PROGRAM" >&2; exit 2; }
program=$(cd "$(dirname "$1")" && pwd)/$(basename "$1")
cd "$(dirname "$0")"
certificate=$(mktemp)
trap 'rm -f "$certificate" "$certificate".*' EXIT
echo '| Text | Ends | Interval | States | Rounds | Seconds |'
echo '|---|---|---|---|---|---|'
for text in triangle-2 triangle-4 triangle-10 exploding boxes elevators zeno rectangle workshop drive; do
    begun=$(date +%s.%N)
    report=$("$program" solve $text.ppddl --cert "$certificate" --workers 1) || [ $? -eq 1 ]
    ended=$(date +%s.%N)
    "$program" check $text.ppddl --cert "$certificate" >/dev/null
    echo "$report" | awk -v text=$text -v seconds="$(echo "$ended $begun" | awk '{ print $1 - $2 }')" '
        NR == 1 { ends = $0 }
        $1 == "interval" { interval = $2 " to " $3 }
        $1 == "states" { states = $2 }
        $1 == "rounds" { rounds = $2 }
        END { printf "| `%s` | %s | %s | %s | %s | %.2f |\n", text, ends, interval, states, rounds, seconds }'
done
