#!/usr/bin/env python3
"""Measures how fast netlists are simulated and waveforms are minimised, beside Icarus Verilog and Verilator.

Prints two tables in Markdown. README.md beside this file says what is measured and what the columns are.
"""

import argparse
import os
import pathlib
import random
import shutil
import signal
import subprocess
import sys
import tempfile
import time

import gen
from netlists import print_row

PROGRAM = pathlib.Path(__file__).resolve().parent.parent / "crates/butramin/out/butramin"

# The inputs of the netlists that are simulated.
INPUTS = [(f"a{i}", None) for i in range(4)]

# So many values of the first input have to be 1 one after another, before the checker can be 1. With random rows it
# never is.
MEMORY = 40

# The netlists' nodes, and the two numbers of cycles that each is simulated for.
SIZES = {1_000: (20_000, 120_000), 100_000: (200, 10_200)}

# The same for `vvp`, which is slow.
VVP_SIZES = {1_000: (2_000, 12_000), 100_000: (5, 25)}

# The numbers of cycles that are minimised, and the number of the stimulus.
CYCLES = [500, 1000, 2000]
NUMBER = 7

# The tries of the loop over `vvp` that are run.
TRIES = 100


# ---- the netlists

HEAD = "module top(input clk, " + ", ".join(f"input {name}" for name, _ in INPUTS) + ", output bad);\n"

# The same inputs, and a checker that is never 1: what is left is the reading.
READING = HEAD + "  wire none;\n  not (none, a0);\n  and (bad, a0, none);\nendmodule\n"


def netlist(nodes):
    """A netlist with so many nodes: a chain of gates with a register after every seventh, each of which reads the one
    before and one of the hundred before that; and a checker that reads the last one, and the last values of the first
    input."""
    chance = random.Random(nodes)
    lines, left = [HEAD], nodes - len(INPUTS) - 2

    def register(name, value):
        nonlocal left
        lines.append(f"  reg {name};\n  always @(posedge clk) {name} <= {value};\n")
        left -= 1

    def both(name, first, second):
        nonlocal left
        lines.append(f"  wire {name};\n  and ({name}, {first}, {second});\n")
        left -= 2

    def inverse(name, value):
        nonlocal left
        lines.append(f"  wire {name};\n  not ({name}, {value});\n")
        left -= 1

    register("s0", "a0")
    for i in range(1, MEMORY):
        register(f"s{i}", f"s{i - 1}")
        both(f"all{i}", f"all{i - 1}" if i > 1 else "s0", f"s{i}")
    names = [name for name, _ in INPUTS]
    # The checker's gate is a node beside its net, which is counted above.
    while left > 4:
        i = len(names)
        if i % 8 == 7:
            register(f"n{i}", names[-1])
        else:
            both(f"m{i}", names[-1], chance.choice(names[-100:]))
            inverse(f"n{i}", f"m{i}")
        names.append(f"n{i}")
    while left > 1:
        register(f"n{len(names)}", names[-1])
        names.append(f"n{len(names)}")
    lines.append(f"  and (bad, {names[-1]}, all{MEMORY - 1});\nendmodule\n")
    return "".join(lines)


def random_rows(cycles):
    chance = random.Random(cycles)
    return [tuple(chance.randrange(2) for _ in INPUTS) for _ in range(cycles)]


# ---- running

def timed(command, folder, limit=None):
    """The status, what was printed, and the seconds of a run; None where it took longer than the limit."""
    start = time.perf_counter()
    pipes = {"stdin": subprocess.DEVNULL, "stdout": subprocess.PIPE, "stderr": subprocess.DEVNULL}
    with subprocess.Popen(command, cwd=folder, text=True, start_new_session=True, **pipes) as process:
        try:
            printed, _ = process.communicate(timeout=limit)
        except subprocess.TimeoutExpired:
            # With all that it started.
            os.killpg(process.pid, signal.SIGKILL)
            return None
    return process.returncode, printed, time.perf_counter() - start


def least(command, folder, runs, wanted):
    """The least seconds of several runs, which end with this status and print this."""
    seconds = []
    for _ in range(runs):
        status, printed, took = timed(command, folder)
        if (status, printed) != wanted:
            sys.exit(f"{command[0]} ended with {status} and printed {printed!r}")
        seconds.append(took)
    return min(seconds)


def minimise(program, netlist, stimulus, top):
    return [program, "minimise", netlist, stimulus, "out.vcd", "--top", top, "--clock", "clk", "--check", "bad"]


# ---- the simulators beside it: each reads a row a line, the first input first, and prints the first violating cycle or
# ---- "none"

BENCH = """\
`timescale 1ns / 1ns
module bench;
  parameter WIDTH = {width};
  reg clk = 0;
  reg [WIDTH - 1:0] row;
  wire bad;
  integer file, got, cycle, seen;
  {top} dut (.clk(clk), {links}, .bad(bad));
  initial begin
    {powered}
    file = $fopen("rows.txt", "r");
    cycle = 0;
    seen = 0;
    got = $fscanf(file, "%b\\n", row);
    while (got == 1 && !seen) begin
      #4;
      if (bad) begin
        $display("%0d", cycle);
        seen = 1;
      end
      #1 clk = 1;
      #5 clk = 0;
      cycle = cycle + 1;
      got = $fscanf(file, "%b\\n", row);
    end
    if (!seen) $display("none");
    $finish;
  end
endmodule
"""


def links(inputs):
    """The connections of the inputs to the row, whose left end is the first input's."""
    parts, at = [], sum(abs(span[0] - span[1]) + 1 if span else 1 for _, span in inputs)
    width = at
    for name, span in inputs:
        size = abs(span[0] - span[1]) + 1 if span else 1
        parts.append(f".{name}(row[{at - 1}:{at - size}])")
        at -= size
    return width, ", ".join(parts)


def powered(text):
    """The registers at 0, as they are at power-up."""
    names = [line.split()[-1].rstrip(";") for line in text.splitlines() if line.split()[:1] == ["reg"]]
    return "\n    ".join(f"dut.{name} = 0;" for name in names)


def compile_bench(folder, top, inputs):
    """The netlist n.v and its bench, as the program that `vvp` runs."""
    width, connected = links(inputs)
    text = (folder / "n.v").read_text()
    bench = BENCH.format(width=width, top=top, links=connected, powered=powered(text))
    (folder / "bench.v").write_text(bench)
    subprocess.run(["iverilog", "-o", "bench.out", "bench.v", "n.v"], cwd=folder, check=True)


def put_rows(folder, inputs, rows):
    widths = [abs(span[0] - span[1]) + 1 if span else 1 for _, span in inputs]
    lines = ["".join(f"{value:0{width}b}" for value, width in zip(row, widths)) for row in rows]
    (folder / "rows.txt").write_text("\n".join(lines) + "\n")


MAIN = """\
#include "Vtop.h"
#include <cstdio>
int main() {
  VerilatedContext context;
  context.randReset(0);
  Vtop dut{&context};
  FILE *file = fopen("rows.txt", "r");
  char row[64];
  for (long cycle = 0; fscanf(file, "%63s", row) == 1; cycle++) {
    DRIVE
    dut.clk = 0;
    dut.eval();
    if (dut.bad) { printf("%ld\\n", cycle); return 0; }
    dut.clk = 1;
    dut.eval();
  }
  printf("none\\n");
}
"""


def compile_verilated(folder, limit):
    """Whether Verilator made a program of the netlist within so many seconds."""
    drive = " ".join(f"dut.{name} = row[{i}] - '0';" for i, (name, _) in enumerate(INPUTS))
    (folder / "main.cpp").write_text(MAIN.replace("DRIVE", drive))
    words = ["verilator", "--cc", "--exe", "--build", "--top-module", "top", "-O3", "-CFLAGS", "-O2"]
    made = timed([*words, "--x-initial", "0", "-Wno-fatal", "-Wno-lint", "n.v", "main.cpp"], folder, limit)
    if made is not None and made[0] != 0:
        sys.exit("verilator does not take the netlist")
    return made is not None


# ---- simulation

def slope(short, long, lengths):
    """Cycles a second, by the times for two numbers of cycles."""
    return (lengths[1] - lengths[0]) / max(long - short, 1e-9)


def shown(rate):
    return f"{rate:,.0f}" if rate >= 10 else f"{rate:.2g}"


def simulated(asked, nodes, folder):
    """The cells of a row of the first table."""
    lengths = SIZES[nodes]
    (folder / "n.v").write_text(netlist(nodes))
    (folder / "reading.v").write_text(READING)
    seconds = {"n.v": [], "reading.v": [], "vvp": [], "verilator": []}
    compile_bench(folder, "top", INPUTS)
    verilated = shutil.which("verilator") and compile_verilated(folder, asked.limit)
    for cycles in lengths:
        rows = random_rows(cycles)
        (folder / "s.vcd").write_text(gen.waveform("top", "clk", INPUTS, rows))
        put_rows(folder, INPUTS, rows)
        for each in ("n.v", "reading.v"):
            command = minimise(asked.program.resolve(), each, "s.vcd", "top")
            seconds[each].append(least(command, folder, asked.runs, (1, "no violation\n")))
        if verilated:
            seconds["verilator"].append(least(["obj_dir/Vtop"], folder, asked.runs, (0, "none\n")))
    for cycles in VVP_SIZES[nodes]:
        put_rows(folder, INPUTS, random_rows(cycles))
        seconds["vvp"].append(least(["vvp", "-n", "bench.out"], folder, 1, (0, "none\n")))
    whole = [a - b for a, b in zip(seconds["n.v"], seconds["reading.v"])]
    rate = slope(*whole, lengths)
    by_vvp = slope(*seconds["vvp"], VVP_SIZES[nodes])
    by_verilator = slope(*seconds["verilator"], lengths) if verilated else None
    others = [shown(by_vvp), shown(by_verilator) if by_verilator else ""]
    return [f"{nodes:,}", f"{lengths[0]:,} and {lengths[1]:,}", f"{rate * nodes:,.0f}", f"{rate:,.0f}", *others]


# ---- minimising

class Enough(Exception):
    """As many tries were run as were asked for."""


def shortened(rows, first):
    """The rows without each cycle that can go, in the order of `minimise`, and the number of tries. `first` gives the
    first violating cycle of rows, or None."""
    tries, found = 0, True
    rows = rows[: first(rows) + 1]
    while found:
        found, at = False, 0
        while at < len(rows):
            left = rows[:at] + rows[at + 1 :]
            tries += 1
            end = first(left)
            if end is None:
                at += 1
            else:
                rows, found = left[: end + 1], True
    return rows, tries


def first_by_hand(rows):
    """The first violating cycle of `gen`."""
    q = 0
    for i, (rst, clr, en, _) in enumerate(rows):
        if q == 15:
            return i
        q = 0 if rst | clr else (q + en) % 16
    return None


def seconds_by_vvp(rows, folder):
    """The seconds of the first tries, each of which is one run of `vvp`, and their number."""
    spent, tries = 0.0, -1

    def first(left):
        nonlocal spent, tries
        if tries == TRIES:
            raise Enough
        put_rows(folder, gen.INPUTS, left)
        _, printed, took = timed(["vvp", "-n", "bench.out"], folder)
        # The first run finds where the rows are cut off, and is no try.
        spent, tries = spent + (took if tries >= 0 else 0.0), tries + 1
        cycle = None if printed == "none\n" else int(printed)
        if cycle != first_by_hand(left):
            sys.exit(f"vvp finds a violation in cycle {printed!r}")
        return cycle

    try:
        shortened(rows, first)
    except Enough:
        pass
    return spent, tries


def minimised(asked, cycles, folder, before):
    """The cells of a row of the second table, and its seconds."""
    rows = gen.stimulus(NUMBER, cycles)
    (folder / "n.v").write_text(gen.NETLIST)
    (folder / "s.vcd").write_text(gen.waveform("gen", "clk", gen.INPUTS, rows))
    command = minimise(asked.program.resolve(), "n.v", "s.vcd", "gen")
    took = []
    for _ in range(asked.runs):
        status, printed, seconds = timed(command, folder)
        if status != 0:
            sys.exit(f"the program ended with {status} and printed {printed!r}")
        took.append(seconds)
    seconds = min(took)
    left, tries = shortened(rows, first_by_hand)
    compile_bench(folder, "gen", gen.INPUTS)
    spent, run = seconds_by_vvp(rows, folder)
    by_vvp = spent / run * tries
    growth = f"{seconds / before:.1f}" if before else ""
    told = printed.partition(": ")[2].partition(", windows")[0]
    cells = [f"{cycles:,}", told, str(len(left)), f"{seconds:.3f}", growth]
    return [*cells, str(tries), f"{1000 * spent / run:.1f}", f"{by_vvp:.1f}", f"{by_vvp / seconds:,.0f}"], seconds


# ---- the tables

def measure(asked, folder):
    if "simulate" in asked.table:
        print_row(["nodes", "cycles", "node evaluations a second", "cycles a second", "vvp", "Verilator"])
        print_row(["--:"] * 6)
        for nodes in asked.nodes:
            (folder / str(nodes)).mkdir()
            print_row(simulated(asked, nodes, folder / str(nodes)))
        print()
    if "minimise" in asked.table:
        ours = ["cycles", "minimised", "left", "seconds", "growth"]
        print_row([*ours, "tries", "vvp ms a try", "vvp seconds", "times faster"])
        print_row(["--:", "---"] + ["--:"] * 7)
        before = None
        for cycles in asked.cycles:
            cells, before = minimised(asked, cycles, folder, before)
            print_row(cells)


def main():
    parser = argparse.ArgumentParser(description=__doc__, formatter_class=argparse.RawDescriptionHelpFormatter)
    parser.add_argument("program", nargs="?", default=PROGRAM, type=pathlib.Path, help="default: %(default)s")
    parser.add_argument("--runs", type=int, default=3, help="runs on each input, but for vvp (default: 3)")
    parser.add_argument("--table", choices=["simulate", "minimise"], nargs="*", default=["simulate", "minimise"])
    parser.add_argument("--nodes", type=int, choices=SIZES, nargs="*", default=list(SIZES), help="default: 1000 100000")
    parser.add_argument("--cycles", type=int, nargs="*", default=CYCLES, help="default: 500 1000 2000")
    parser.add_argument("--limit", type=int, default=600, help="seconds for Verilator to make a program (default: 600)")
    asked = parser.parse_args()
    if not os.access(asked.program, os.X_OK):
        parser.error(f"there is no program {asked.program}")
    for needed in ("iverilog", "vvp"):
        if not shutil.which(needed):
            parser.error(f"there is no {needed}")
    with tempfile.TemporaryDirectory() as folder:
        measure(asked, pathlib.Path(folder))


if __name__ == "__main__":
    main()
