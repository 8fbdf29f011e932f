#!/bin/sh
# Writes the dumps that the transcript `dumps.txt` has: of the ports alone, and of all that there is. Needs `iverilog`.
# usage: bench/dumps/dumps.sh FOLDER
set -eu
here=$(cd "$(dirname "$0")" && pwd)
netlist=$here/../../crates/butramin/data/twice.v
mkdir -p "$1"
cd "$1"
dump() {
    iverilog -o "$1.out" "-DFILE=\"$1.vcd\"" "-DDUMPED=$2" "$here/bench.v" "$netlist"
    vvp -n "$1.out" > /dev/null
    rm "$1.out"
}
dump ports "0, dut.clk, dut.a, dut.bad"
dump all "0, bench"
