#!/usr/bin/env python3
"""Measures in how much time and memory the program `flat_sizes` makes flat netlists of several kinds and sizes.

Prints a table in Markdown. README.md beside this file says what the kinds and the columns are.
"""

import argparse
import os
import pathlib
import sys
import tempfile

from netlists import GNU_TIME, MIB, print_row, run

PROGRAM = pathlib.Path(__file__).resolve().parent.parent / "crates/flat_sizes/out/flat_sizes"

# The greatest netlist that is read, and the greatest flat netlist that is made.
MOST_BYTES = 16 * MIB
MOST_NODES = 1 << 20
MOST_INSTANCES = 1 << 20
WIDEST = 1 << 16

WORDS = ["top", "clk", "bad"]
TOP = """\
module top (input clk, input a, output bad);
  assign bad = a;
"""
END = "endmodule\n"

GATES = ["nand", "nor", "and", "xor", "or", "xnor"]


def pieces(size, first, piece, last, most):
    """As many pieces as fit into so many bytes, between the first text and the last; and no more than `most`."""
    text = [first]
    left = size - len(first) - len(last)
    for i in range(most):
        one = piece(i)
        if len(one) > left:
            break
        text.append(one)
        left -= len(one)
    text.append(last)
    return "".join(text)


def sources(i, name):
    """The names of two of the hundred nets before."""
    return [name.format(i - back) if back <= i else "a" for back in (i * 37 % 100 + 1, i * 53 % 100 + 1)]


def flat_cell(i):
    """A gate on a wire, or a register: two nodes, or one."""
    left, right = sources(i, "n{}")
    if i % 8 == 7:
        return f"  reg n{i};\n  always @(posedge clk) n{i} <= {left};\n"
    return f"  wire n{i};\n  {GATES[i % 8 % 6]} g{i} (n{i}, {left}, {right});\n"


def flat_cells(mib):
    return pieces(mib * MIB, TOP, flat_cell, END, MOST_NODES // 2 - 4)


LIBRARY = """\
module DFF (input CK, input D, output reg Q);
  always @(posedge CK) Q <= D;
endmodule
""" + "".join(
    f"module {gate.upper()}2 (input A, input B, output Y);\n  {gate} (Y, A, B);\nendmodule\n" for gate in GATES
)


def library_cell(i):
    """A wire and the cell that drives it: five nodes."""
    left, right = sources(i, "alu_n{}")
    if i % 8 == 7:
        cell = f"DFF alu_reg_{i} (.CK(clk), .D({left}), .Q(alu_n{i}))"
    else:
        cell = f"{GATES[i % 8 % 6].upper()}2 alu_U{i} (.A({left}), .B({right}), .Y(alu_n{i}))"
    return f"  wire alu_n{i};\n  {cell};\n"


def library_cells(mib):
    return pieces(mib * MIB, LIBRARY + TOP, library_cell, END, MOST_NODES // 5 - 4)


def tree(subtrees, ports, links, leaf):
    """The modules m0 to m3, each with sixteen instances of the next, the leaf m4, and so many instances of m0 in the top."""
    modules = [f"module m{level}{ports};\n{links(16, f'm{level + 1}')}{END}" for level in range(4)]
    return TOP + links(subtrees, "m0") + END + "".join(modules) + leaf


def bare_links(count, below):
    return "".join(f"  {below} u{i}();\n" for i in range(count))


def bare_tree(mib):
    """One node a leaf. With fifteen subtrees of 69,905 instances there are as many instances as there may be."""
    return tree({1: 1, 4: 4}.get(mib, 15), "", bare_links, "module m4;\n  buf (y, 1'b1);\nendmodule\n")


def chain_links(count, below):
    return "".join(f"  {below} u{i} (n{i}, n{i + 1});\n" for i in range(count))


def chain_tree(mib):
    """Each module hands its input on through sixteen others, and each leaf through a gate."""
    leaf = "module m4 (input a, output y);\n  not (y, a);\nendmodule\n"
    return tree({1: 1, 4: 2}.get(mib, 5), " (input n0, output n16)", chain_links, leaf)


def concatenation(i):
    parts = ",\n    ".join(f"source[{(k * 7919 + i) % WIDEST}]" for k in range(WIDEST))
    return f"  wire [{WIDEST - 1}:0] w{i} = {{\n    {parts}}};\n"


def concatenations(mib):
    first = TOP + f"  wire [{WIDEST - 1}:0] source;\n"
    return pieces(max(mib * MIB, 3 * MIB // 2), first, concatenation, END, MOST_NODES // WIDEST - 2)


KINDS = {
    "flat cells": flat_cells,
    "cells of a library": library_cells,
    "bare tree": bare_tree,
    "tree of chains": chain_tree,
    "concatenations": concatenations,
}


def cost(program, words, folder, runs):
    """What is printed, the least seconds of several runs, and the greatest peak in bytes."""
    costs = []
    for _ in range(runs):
        (status, printed), one = run([program, "netlist.v", *WORDS, *words], folder)
        if status != 0:
            sys.exit(f"{program} ended with {status} and printed {printed!r}")
        costs.append(one)
    return printed, min(seconds for seconds, _ in costs), max(peak for _, peak in costs)


def measured(program, kind, mib, folder, runs):
    """The cells of a row."""
    text = KINDS[kind](mib)
    if len(text) > MOST_BYTES:
        sys.exit(f"{kind} of {mib} MiB has {len(text)} bytes")
    (folder / "netlist.v").write_text(text, encoding="ascii", newline="\n")
    printed, seconds, peak = cost(program, [], folder, runs)
    _, before, peak_before = cost(program, ["rules"], folder, runs)
    sizes = dict(line.split() for line in printed.splitlines())
    nodes = int(sizes["nodes"])
    rate = f"{nodes / (seconds - before):,.0f}" if seconds - before > 0.005 else ""
    counts = [f"{len(text):,}", f"{nodes:,}", f"{int(sizes['registers']):,}"]
    return [kind, *counts, f"{seconds:.3f}", f"{before:.3f}", rate, f"{peak / nodes:.0f}", f"{peak_before / nodes:.0f}"]


def measure(asked, folder):
    head = ["kind", "bytes", "nodes", "registers", "seconds", "before", "nodes a second", "memory", "memory before"]
    print_row(head)
    print_row(["---"] + ["--:"] * (len(head) - 1))
    for kind in asked.kind or KINDS:
        for mib in asked.sizes:
            print_row(measured(asked.program.resolve(), kind, mib, folder, asked.runs))


def main():
    parser = argparse.ArgumentParser(description=__doc__, formatter_class=argparse.RawDescriptionHelpFormatter)
    parser.add_argument("program", nargs="?", default=PROGRAM, type=pathlib.Path, help="default: %(default)s")
    parser.add_argument("--runs", type=int, default=3, help="runs on each netlist (default: 3)")
    parser.add_argument("--kind", choices=KINDS, action="append", help="measure this kind alone")
    parser.add_argument("--sizes", type=int, nargs="*", default=[1, 4, 16], help="MiB (default: 1 4 16)")
    asked = parser.parse_args()
    for needed in (asked.program, GNU_TIME):
        if not os.access(needed, os.X_OK):
            parser.error(f"there is no program {needed}")
    with tempfile.TemporaryDirectory() as folder:
        measure(asked, pathlib.Path(folder))


if __name__ == "__main__":
    main()
