#!/bin/sh
# Makes the netlists and the waveforms of the examples from their RTL. Needs `yosys` and `iverilog`.
# usage: examples/make.sh
#
# A dump's `$date` and `$version` are taken out, so that the same tools make the same bytes.
set -eu
cd "$(dirname "$0")"

for name in counter fifo arbiter; do
    (
        cd "$name"
        yosys -q -p "read_verilog $name.v; script ../synth.ys"
        iverilog -o bench.out bench.v "$name.v"
        vvp -n bench.out
        rm bench.out
        sed -i '/^\$date/,/^\$end/d; /^\$version/,/^\$end/d' stimulus.vcd
    )
done
