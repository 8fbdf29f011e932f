#!/usr/bin/env python3
"""Measures in how much time and memory the program reads waveforms of several kinds and sizes.

Prints a table in Markdown. README.md beside this file says what the kinds and the columns are."""
import argparse, os, random, subprocess, sys, tempfile

HERE = os.path.dirname(os.path.abspath(__file__))
MIB = 1 << 20

NETLIST = """module top(input clk, {inputs}, output bad);
  wire none;
  not (none, a0);
  and (bad, a0, none);
endmodule
"""


def netlist(inputs):
    """A netlist with so many inputs, whose checker is never 1."""
    return NETLIST.format(inputs=", ".join(f"input a{i}" for i in range(inputs)))


def code_of(number):
    text = ""
    while True:
        text += chr(33 + number % 94)
        number //= 94
        if not number:
            return text


def header(variables):
    """A header with a scope of these variables, each its width, its code and its name."""
    lines = ["$timescale 1ns $end", "$scope module top $end"]
    lines += [f"$var wire {width} {code} {name} $end" for width, code, name in variables]
    return "\n".join(lines + ["$upscope $end", "$enddefinitions $end", ""])


def few_signals(size):
    """A clock and eight inputs, of which some change in each cycle."""
    chance = random.Random(1)
    inputs = [(1, code_of(i + 1), f"a{i}") for i in range(8)]
    parts = [header([(1, code_of(0), "clk")] + inputs), "#0\n0!\n"]
    parts += [f"0{code}\n" for _, code, _ in inputs]
    length, time = sum(map(len, parts)), 0
    while length < size:
        changes = "".join(f"{chance.randrange(2)}{code}\n" for _, code, _ in inputs)
        part = f"#{time + 5}\n1!\n#{time + 6}\n{changes}#{time + 10}\n0!\n"
        parts.append(part)
        length, time = length + len(part), time + 10
    return "".join(parts), 8


def many_signals(size):
    """A whole design: 100,000 variables in 5,000 scopes, of which eight are wanted and all change."""
    chance = random.Random(2)
    lines = ["$timescale 1ns $end", "$scope module bench $end"]
    codes = []
    for scope in range(4_999):
        lines.append(f"$scope module m{scope} $end")
        for i in range(20):
            codes.append(code_of(9 + len(codes)))
            lines.append(f"$var wire 1 {codes[-1]} n{i} $end")
        lines.append("$upscope $end")
    lines += ["$scope module top $end", "$var wire 1 ! clk $end"]
    lines += [f"$var wire 1 {code_of(i + 1)} a{i} $end" for i in range(8)]
    lines += ["$upscope $end", "$upscope $end", "$enddefinitions $end", "#0", "0!", ""]
    parts = ["\n".join(lines)]
    length, time = len(parts[0]), 0
    while length < size:
        changes = "".join(f"{chance.randrange(2)}{chance.choice(codes)}\n" for _ in range(1_000))
        part = f"#{time + 5}\n1!\n{changes}#{time + 10}\n0!\n"
        parts.append(part)
        length, time = length + len(part), time + 10
    return "".join(parts), 8


def long_vectors(size):
    """A clock, eight inputs, and a bus of 1,024 bits beside them that changes in each cycle."""
    chance = random.Random(3)
    inputs = [(1, code_of(i + 1), f"a{i}") for i in range(8)]
    bus = (1024, code_of(9), "bus [1023:0]")
    parts = [header([(1, code_of(0), "clk")] + inputs + [bus]), "#0\n0!\n"]
    length, time = sum(map(len, parts)), 0
    while length < size:
        value = f"{chance.getrandbits(1024):1024b}".replace(" ", "0")
        part = f"#{time + 5}\n1!\nb{value} {bus[1]}\n#{time + 10}\n0!\n"
        parts.append(part)
        length, time = length + len(part), time + 10
    return "".join(parts), 8


KINDS = {"few signals, many cycles": few_signals, "100,000 signals": many_signals, "long vectors": long_vectors}


def measured(program, folder, runs):
    """Returns the least seconds and the greatest peak in bytes of the runs, and what was printed."""
    words = [program, "minimise", "n.v", "s.vcd", "o.vcd", "--top", "top", "--clock", "clk", "--check", "bad"]
    seconds, peak, said = None, 0, ""
    for _ in range(runs):
        ran = subprocess.run(["/usr/bin/time", "-f", "%e %M", *words], cwd=folder, capture_output=True, text=True)
        took, most = ran.stderr.split()[-2:]
        seconds = float(took) if seconds is None else min(seconds, float(took))
        peak, said = max(peak, int(most) * 1024), ran.stdout.strip()
    return seconds, peak, said


def main():
    asked = argparse.ArgumentParser(description=__doc__, formatter_class=argparse.RawDescriptionHelpFormatter)
    asked.add_argument("program", nargs="?", default=os.path.join(HERE, "../crates/butramin/out/butramin"))
    asked.add_argument("--runs", type=int, default=3, help="runs on each waveform (default: 3)")
    asked.add_argument("--kind", choices=KINDS, help="measure this kind alone")
    asked.add_argument("--sizes", type=int, nargs="*", default=[1, 16, 256], help="MiB (default: 1 16 256)")
    asked = asked.parse_args()
    program = os.path.abspath(asked.program)
    print("| kind | MB | seconds | MB a second | memory | printed |")
    print("| --- | --: | --: | --: | --: | --- |")
    for kind, make in KINDS.items():
        if asked.kind and kind != asked.kind:
            continue
        for size in asked.sizes:
            with tempfile.TemporaryDirectory() as folder:
                # (a waveform has at most 256 MiB)
                text, inputs = make(size * MIB - 20_000)
                with open(f"{folder}/n.v", "w") as it:
                    it.write(netlist(inputs))
                with open(f"{folder}/s.vcd", "w") as it:
                    it.write(text)
                seconds, peak, said = measured(program, folder, asked.runs)
                count = len(text) / 1e6
                print(f"| {kind} | {count:.1f} | {seconds:.2f} | {count / max(seconds, 0.01):.0f} | {peak / len(text):.1f} | `{said}` |")
                sys.stdout.flush()


main()
