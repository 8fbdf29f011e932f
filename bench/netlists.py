#!/usr/bin/env python3
"""Measures in how much time and memory the program reads netlists of several kinds and sizes, and another one beside it.

Prints a table in Markdown. README.md beside this file says what the kinds and the columns are.
"""

import argparse
import itertools
import os
import pathlib
import resource
import shutil
import subprocess
import sys
import tempfile
import time

MIB = 1 << 20
SIZES = [1, 4, 16]  # MiB; the last is the greatest that is read
PROGRAM = pathlib.Path(__file__).resolve().parent.parent / "crates/butramin/out/butramin"
GNU_TIME = "/usr/bin/time"

# A program that is measured beside it may ask for more memory than a machine has.
MOST_MEMORY = 8 << 30

# What the program answers to a netlist that is accepted: it has no waveform to read.
ACCEPTED = (5, "read fault\n")

# What it answers to one with a size above its limit.
SIZE_LIMITS = ["instances 1048576", "nodes 1048576", "registers 65536", "inputs 4096"]
TOO_LARGE = [(7, f"limit: {limit}\n") for limit in SIZE_LIMITS]

# What earlier programs answered to each of these netlists that keeps the rules.
BEFORE = (3, "netlist refused: form\n")

# Whichever of these comes, the netlist was read to the end and keeps the rules.
KEPT = (ACCEPTED, *TOO_LARGE, BEFORE)

# Its status where there is no memory, and that of a process that was ended for it.
OUT_OF_MEMORY = (8, 137)

# The most that the nest count of a token may be.
NEST_LIMIT = 500

GATES = ["nand", "nor", "and", "xor", "or", "xnor"]
LIBRARY = """\
module INV (A, Y);
  input A;
  output Y;
  not (Y, A);
endmodule
module DFF (CK, D, Q);
  input CK, D;
  output reg Q;
  always @(posedge CK) Q <= D;
endmodule
""" + "".join(
    f"""\
module {gate.upper()}2 (A, B, Y);
  input A, B;
  output Y;
  {gate} (Y, A, B);
endmodule
"""
    for gate in GATES
)
TOP = """\
module top (input clk, input a, output bad);
  assign bad = a;
"""
WIRES = 1000
TOP_WITH_WIRES = TOP + "  wire " + ", ".join(f"n{i}" for i in range(WIRES)) + ";\n"
END = "endmodule\n"


def cell(i):
    """A wire and the cell that drives it, which reads some of the hundred wires before."""
    pins = [f"n{i - back}" if back <= i else "a" for back in (i * 37 % 100 + 1, i * 53 % 100 + 1)]
    kind = i % (len(GATES) + 2)
    if kind < len(GATES):
        instance = f"{GATES[kind].upper()}2 U{i} (.A({pins[0]}), .B({pins[1]}), .Y(n{i}))"
    elif kind == len(GATES):
        instance = f"INV U{i} (.A({pins[0]}), .Y(n{i}))"
    else:
        instance = f"DFF state_reg_{i} (.CK(clk), .D({pins[0]}), .Q(n{i}))"
    return f"  wire n{i};\n  {instance};\n"


def wire(i):
    return f"n{i * 7919 % WIRES}"


def joined(names, operators):
    return names[0] + "".join(f" {operator} {name}" for operator, name in zip(itertools.cycle(operators), names[1:]))


def long_expression(i):
    """A concatenation of 100 KB: after its first part, which has nearly all operators that may stand there, only names."""
    width = 17_000
    parts = [joined([wire(i + k) for k in range(490)], "&^|")] + [wire(i + k) for k in range(1, width)]
    return f"  wire [{width - 1}:0] y{i};\n  assign y{i} = {{{', '.join(parts)}}};\n"


def many_operators(i):
    names = [wire(i + k) for k in range(NEST_LIMIT + 1)]
    return f"  wire y{i};\n  assign y{i} = {joined(names, ['&', '^', '|', '=='])};\n"


def deep_nest(i):
    return f"  wire y{i};\n  assign y{i} = {'(' * NEST_LIMIT}{wire(i)}{')' * NEST_LIMIT};\n"


def comment_line(i):
    return f"line {i} of a comment, with a * and a / in it\n"


LONG_NAME = "m" * (256 << 10)
LONG_NAMED = f"module {LONG_NAME} (input a);\nendmodule\n" + TOP + f"  {LONG_NAME} u (a)"


def named_instance(i):
    return f", u{i} (a)"


def one_letter(_):
    return ",a"


INSTANCES = "module M (input a);\nendmodule\n" + TOP + "  M u (a)"


def driven_wire(i):
    return f"wire n{i};assign n{i}=a;\n"


def wide_wire(i):
    return f"wire [65535:0] n{i};assign n{i}[{i % 65536}]=a;\n"


def wide_assignment(i):
    return "w<=w;" if i % 2 else f"w[{i % 65536}]<=a;"


WIDE_REGISTER = TOP + "  reg [65535:0] w;\n  always @(posedge clk) begin\n"


# Of each kind what comes first, the i-th of the pieces that follow, what comes last, and what may be answered.
KINDS = {
    "many small items": (LIBRARY + TOP, cell, END, KEPT),
    "few long expressions": (TOP_WITH_WIRES, long_expression, END, KEPT),
    "operators at the limit": (TOP_WITH_WIRES, many_operators, END, KEPT),
    "deep nests at the limit": (TOP_WITH_WIRES, deep_nest, END, KEPT),
    "one long comment": (TOP + "/*\n", comment_line, "*/\n" + END, KEPT),
    "one long name": (LONG_NAMED, named_instance, ";\n" + END, KEPT),
    "names of one letter": (TOP + "  wire a", one_letter, ";\n" + END, ((3, "netlist refused: E4 top.a\n"),)),
    "many instances": (INSTANCES, named_instance, ";\n" + END, KEPT),
    "many names": (TOP, driven_wire, END, KEPT),
    "wide names": (TOP, wide_wire, END, KEPT),
    "many assignments": (WIDE_REGISTER, wide_assignment, "end\n" + END, KEPT),
}


def write_netlist(path, kind, size):
    """Writes a netlist of this many bytes: as many pieces as fit, and newlines for the rest."""
    first, piece, last, _ = KINDS[kind]
    with open(path, "w", encoding="ascii", newline="\n") as file:
        left = size - file.write(first) - len(last)
        for i in itertools.count():
            text = piece(i)
            if len(text) > left:
                break
            left -= file.write(text)
        file.write(last + "\n" * left)


def run(command, folder):
    """Runs the command in the folder and gives its status and output, and its seconds and peak bytes of memory."""
    note = folder / "peak"
    start = time.perf_counter()
    done = subprocess.run(
        [GNU_TIME, "-q", "-f", "%M", "-o", note, *command],
        cwd=folder,
        env={**os.environ, "TMP": str(folder)},
        stdin=subprocess.DEVNULL,
        stdout=subprocess.PIPE,
        stderr=subprocess.DEVNULL,
        text=True,
        preexec_fn=lambda: resource.setrlimit(resource.RLIMIT_AS, (MOST_MEMORY, MOST_MEMORY)),
    )
    seconds = time.perf_counter() - start
    return (done.returncode, done.stdout), (seconds, int(note.read_text()) * 1024)


def program_cost(program, netlist, kind, folder, runs):
    """The least time of several runs, and the greatest peak. None where there was no memory."""
    words = ["minimise", netlist, "no.vcd", "out.vcd", "--top", "top", "--clock", "clk", "--check", "bad"]
    costs = []
    for _ in range(runs):
        answer, cost = run([program, *words], folder)
        if answer[0] in OUT_OF_MEMORY:
            return None
        if answer not in KINDS[kind][-1]:
            sys.exit(f"{program} answered {answer} to {kind}")
        costs.append(cost)
    return min(seconds for seconds, _ in costs), max(peak for _, peak in costs)


def cost_cells(cost, size):
    """Seconds, and bytes of memory for each byte of the netlist."""
    return [f"{cost[0]:.3f}", f"{cost[1] / size:.1f}"] if cost else ["no memory", ""]


def iverilog_cells(netlist, size, folder, limit):
    """Seconds and bytes of memory for each byte, of one run."""
    (status, _), (seconds, peak) = run(["timeout", str(limit), "iverilog", "-t", "null", "-s", "top", netlist], folder)
    if status == 124:
        return [f"over {limit}", ""]
    return [f"{seconds:.2f}", f"{peak / size:.1f}"] if status == 0 else [f"status {status}", ""]


def print_row(cells):
    print("| " + " | ".join(cells) + " |", flush=True)


def measure(asked, with_iverilog, folder):
    head = ["kind", "MiB", "seconds", "memory", "growth of time", "growth of memory"]
    if asked.before:
        head += ["seconds before", "memory before"]
    if with_iverilog:
        head += ["iverilog seconds", "iverilog memory"]
    print_row(head)
    print_row(["---"] + ["--:"] * (len(head) - 1))
    netlist = folder / "netlist.v"
    for kind in asked.kind or KINDS:
        smaller = None
        for mib in SIZES:
            size = mib * MIB
            write_netlist(netlist, kind, size)
            cost = program_cost(asked.program.resolve(), netlist, kind, folder, asked.runs)
            row = [kind, str(mib), *cost_cells(cost, size)]
            row += [f"{now / then:.1f}" for now, then in zip(cost, smaller)] if cost and smaller else ["", ""]
            smaller = cost
            if asked.before:
                row += cost_cells(program_cost(asked.before.resolve(), netlist, kind, folder, asked.runs), size)
            if with_iverilog:
                row += iverilog_cells(netlist, size, folder, asked.iverilog_limit)
            print_row(row)


def main():
    parser = argparse.ArgumentParser(description=__doc__, formatter_class=argparse.RawDescriptionHelpFormatter)
    parser.add_argument("program", nargs="?", default=PROGRAM, type=pathlib.Path, help="default: %(default)s")
    parser.add_argument("--before", type=pathlib.Path, help="an earlier program, measured on the same netlists")
    parser.add_argument("--runs", type=int, default=3, help="runs of the program on each netlist (default: 3)")
    parser.add_argument("--kind", choices=KINDS, action="append", help="measure this kind alone")
    parser.add_argument("--iverilog-limit", type=int, default=120, help="seconds; 0 leaves iverilog out (default: 120)")
    asked = parser.parse_args()
    for needed in filter(None, (asked.program, asked.before, GNU_TIME)):
        if not os.access(needed, os.X_OK):
            parser.error(f"there is no program {needed}")
    with_iverilog = bool(shutil.which("iverilog")) and asked.iverilog_limit > 0
    with tempfile.TemporaryDirectory() as folder:
        measure(asked, with_iverilog, pathlib.Path(folder))


if __name__ == "__main__":
    main()
