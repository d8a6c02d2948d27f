#!/bin/sh
# Draws how the interval of a search closes, with gnuplot, from what --progress puts on standard error.
#
#     ./ppddl_plan solve DOMAIN --cert F --progress 2>rounds.txt
#     examples/plot.sh rounds.txt rounds.svg
set -eu
[ $# -eq 2 ] || { echo "usage: examples/plot.sh LINES PICTURE.svg" >&2; exit 2; }
points=$(mktemp)
trap 'rm -f "$points"' EXIT
# Other lines, as the reason of a stop, are left out.
awk '$1 == "round" && $3 == "interval" { print $2, $4, $5 }' "$1" >"$points"
[ -s "$points" ] || { echo "$1: no line tells of a round" >&2; exit 1; }
gnuplot >"$2" <<EOF
set terminal svg size 640,400
set logscale x 2
set xlabel "rounds"
set ylabel "units"
plot "$points" using 1:2:3 with filledcurves linecolor rgb "gray85" title "interval", \\
  "$points" using 1:2 with linespoints linecolor rgb "black" title "lower end", \\
  "$points" using 1:3 with linespoints linecolor rgb "gray40" title "upper end"
EOF
