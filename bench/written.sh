#!/bin/sh
# Shows that the traces of simulations convert by vcd2fst without a warning and open in gtkwave.
#
#     sh bench/written.sh [PROGRAM]
#
# vcd2fst and gtkwave are Debian's package gtkwave. For gtkwave a display or xvfb-run is needed; without one it is not tried.
set -eu
program="${1:-$(dirname "$0")/../crates/ccsl/out/ccsl}"
folder="$(mktemp -d)"
trap 'rm -rf "$folder"' EXIT

cat > "$folder/count.tcl" <<'END'
puts "opened: [gtkwave::getNumFacs] clocks, last time [gtkwave::getMaxTime]"
exit
END

for clocks in 1 2 94 95 1024; do
    trace="$folder/trace$clocks.vcd"
    echo "ccsl 1; system { clock $(seq -s ', ' -f 'c%.0f' "$clocks"); }" > "$folder/spec.ccsl"
    "$program" simulate spec="$folder/spec.ccsl" policy=max seed=1 steps=3000 trace="$trace" cert="$folder/cert" > "$folder/said"
    said="$(vcd2fst "$trace" "$folder/trace.fst" 2>&1)"
    if [ -n "$said" ]; then
        echo "$clocks clocks: vcd2fst says: $said"
        exit 1
    fi
    echo "$clocks clocks: vcd2fst says nothing"
    if command -v xvfb-run > /dev/null && command -v gtkwave > /dev/null; then
        xvfb-run -a gtkwave -S "$folder/count.tcl" "$trace" 2>/dev/null | grep "^opened: $clocks clocks, last time 2999\$"
    fi
done
