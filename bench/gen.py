#!/usr/bin/env python3
"""Writes the netlist `gen` and its stimulus for a number, as `butramin make N NETLIST STIM` is to write them.

A counter of four bits, which random rows clear now and then, and a register of the parity of a bus that the checker
does not read. The checker is 1 at 15. The stimulus has 2,000 rows; of those, the last seventeen clear the counter and
count it to 15. With --cycles it has another number of rows: fewer or more random ones, and the same last ones.
"""

import argparse
import pathlib

NETLIST = """\
module gen(clk, rst, clr, en, data, bad);
  input clk, rst, clr, en;
  input [7:0] data;
  output bad;
  reg [3:0] q;
  reg p;
  always @(posedge clk)
    if (rst | clr) q <= 4'd0;
    else if (en) q <= {q[3] ^ (q[2] & q[1] & q[0]), q[2] ^ (q[1] & q[0]), q[1] ^ q[0], ~q[0]};
  always @(posedge clk) p <= ^data;
  assign bad = &q;
endmodule
"""

# The inputs but the clock, each with its range; None is a scalar.
INPUTS = [("rst", None), ("clr", None), ("en", None), ("data", (7, 0))]

CYCLES = 2000
LAST = [(0, 1, 0, 0)] + [(0, 0, 1, 0)] * 16


def stimulus(number, cycles=CYCLES):
    """The rows, each with the values of the inputs in their order."""
    rows, x = [], number
    for i in range(cycles - len(LAST)):
        x = (x * 6364136223846793005 + 1442695040888963407) % (1 << 64)
        r = x >> 32
        rows.append((int(i < 2), r >> 1 & r >> 2 & 1, r & 1, r >> 3 & 255))
    return rows + LAST


def code_of(number):
    """A number in base 94, the least digit first."""
    text = chr(33 + number % 94)
    while number >= 94:
        number //= 94
        text += chr(33 + number % 94)
    return text


def waveform(top, clock, inputs, rows):
    """The waveform of these rows, without the checker's bits, as Butramin writes it."""
    codes = [code_of(number + 2) for number in range(len(inputs))]
    widths = [abs(span[0] - span[1]) + 1 if span else 1 for _, span in inputs]
    lines = ["$version butramin 1 $end", "$timescale 1ns $end", f"$scope module {top} $end"]
    lines.append(f"$var wire 1 ! {clock} $end")
    for (name, span), width, code in zip(inputs, widths, codes):
        lines.append(f"$var wire {width} {code} {name} " + (f"[{span[0]}:{span[1]}] " if span else "") + "$end")
    lines += ["$upscope $end", "$enddefinitions $end"]

    def changes(row, before):
        for n, (_, span) in enumerate(inputs):
            if before is None or row[n] != before[n]:
                lines.append(f"b{row[n]:0{widths[n]}b} {codes[n]}" if span else f"{row[n]}{codes[n]}")

    before = None
    for i, row in enumerate(rows):
        lines += [f"#{10 * i}", "$dumpvars", "0!"] if before is None else [f"#{10 * i - 5}", "1!", f"#{10 * i}", "0!"]
        changes(row, before)
        if before is None:
            lines.append("$end")
        before = row
    return "\n".join(lines) + "\n"


def main():
    parser = argparse.ArgumentParser(description=__doc__, formatter_class=argparse.RawDescriptionHelpFormatter)
    parser.add_argument("number", type=int, metavar="N", help="0 to 4294967295")
    parser.add_argument("netlist", type=pathlib.Path)
    parser.add_argument("stimulus", type=pathlib.Path)
    parser.add_argument("--cycles", type=int, default=CYCLES, help="default: %(default)s")
    asked = parser.parse_args()
    if not 0 <= asked.number < 1 << 32 or asked.cycles < len(LAST):
        parser.error("a number or a count of cycles that is out of its range")
    asked.netlist.write_text(NETLIST, encoding="ascii", newline="\n")
    text = waveform("gen", "clk", INPUTS, stimulus(asked.number, asked.cycles))
    asked.stimulus.write_text(text, encoding="ascii", newline="\n")


if __name__ == "__main__":
    main()
