#!/usr/bin/env python3
"""Drives a netlist with a waveform in Icarus Verilog, and says in which cycle the checker is 1 first.

The words are those of `butramin check`. The status is 0 exactly where that cycle is the last one, and 1 where it is
not.

Registers begin as Butramin begins them: with their initial value, and with 0 where they have none. Then come the reset
cycles, if any, and then one cycle for each row of the waveform, whose inputs stand before the rising edge. It needs
Python 3.8 or later, and `iverilog` and `vvp`.
"""

import argparse
import pathlib
import re
import subprocess
import sys
import tempfile


def lexed(text):
    """The tokens of a netlist, names without their backslash."""
    text = re.sub(r"/\*.*?\*/|//[^\n]*|\(\*.*?\*\)", " ", text, flags=re.S)
    return [token.lstrip("\\") for token in re.findall(r"\\[!-~]+|[\w$']+|[^\w\s]", text)]


def inputs_of(netlist, top):
    """The name and the range of each input of the top module; a name without a range is a scalar."""
    tokens = lexed(netlist)
    start = next((i for i in range(len(tokens) - 1) if tokens[i : i + 2] == ["module", top]), None)
    if start is None:
        sys.exit(f"there is no module {top}")
    body = tokens[start + 2 : tokens.index("endmodule", start)]
    found, i = {}, 0
    while i < len(body):
        if body[i] != "input":
            i += 1
            continue
        i += 1
        if body[i] == "wire":
            i += 1
        span = None
        if body[i] == "[":
            span = (int(body[i + 1]), int(body[i + 3]))
            i += 5
        while True:
            found[body[i]] = span
            if body[i + 1] != "," or body[i + 2] in ("input", "output"):
                break
            i += 2
        i += 1
    return found


class Waveform:
    """A waveform: the scopes in their order, each with the code and size of its names, and the body's tokens."""

    def __init__(self, text):
        header, _, self.body = text.partition("$enddefinitions")
        self.scopes, path = {}, []
        for section in re.findall(r"\$(\w+)\s+(.*?)\s*\$end\b", header + "$end", flags=re.S):
            words = section[1].split()
            if section[0] == "scope":
                path.append(words[1].lstrip("\\"))
                self.scopes.setdefault(".".join(path), {})
            elif section[0] == "upscope":
                path.pop()
            elif section[0] == "var":
                name = words[3] if words[3].startswith("\\") else words[3].partition("[")[0]
                self.scopes[".".join(path)].setdefault(name.lstrip("\\"), (words[2], int(words[1]), words[0]))

    def times(self):
        """The values of all codes at the end of each time, as one dictionary that is changed from time to time."""
        values, now, tokens = {}, None, iter(self.body.split())
        next(tokens)
        for token in tokens:
            if token[0] == "#":
                if now not in (None, token):
                    yield values
                now = token
            elif token[0] in "bB":
                values[next(tokens)] = token[1:]
            elif token[0] in "01xXzZ":
                values[token[1:]] = token[0]
        yield values

    def rows(self, signals, clock):
        """The signals' bits in each cycle: before each rising edge of the clock, and once at the end of the file."""
        rows, before, row = [], None, None
        for values in self.times():
            now = values.get(clock, "0")
            if before == "0" and now == "1":
                rows.append(row)
            before = now if now == "1" else "0"
            row = [widened(values.get(code, "0"), size) for code, size, _ in signals]
        return rows + [row]


def widened(value, size):
    """A value at its full size, with 0 for what is unknown."""
    filled = value.rjust(size, "0" if value[0] in "01" else value[0])
    return re.sub("[xXzZ]", "0", filled)


def escaped(name):
    return f"\\{name} "


def bench(asked, inputs, steps, powered, rows):
    """A bench that runs so many cycles and prints the checker's bit in each."""
    spans = [f"[{span[0]}:{span[1]}] " if span else "" for span in inputs.values()]
    declared = [f"  reg {span}i{n};" for n, span in enumerate(spans)]
    links = [f".{escaped(name)}(i{n})" for n, name in enumerate(inputs)]
    links += [f".{escaped(asked.clock)}(clock)", f".{escaped(asked.check)}(check)"]
    width = sum(abs(span[0] - span[1]) + 1 if span else 1 for span in inputs.values())
    taken = ", ".join(f"i{n}" for n in range(len(inputs)))
    drive = [f"      {{{taken}}} = rows[cycle];"] if inputs else []
    return "\n".join(
        ["`timescale 1ns / 1ns", "module replay;", "  reg clock = 0;", "  wire check;", *declared]
        + [f"  reg [{max(width, 1) - 1}:0] rows [0:{max(steps, 1) - 1}];", "  integer cycle;"]
        + [f"  {escaped(asked.top)} dut ({', '.join(links)});", "  initial begin"]
        + ['    $dumpfile("powered.vcd");', "    $dumpvars(0, dut);"] * (not powered)
        + [f'    $readmemb("{rows}", rows);', "    #1"]
        + [f"    dut.{name} = {len(value)}'b{value};" for name, value in powered]
        + [f"    for (cycle = 0; cycle < {steps}; cycle = cycle + 1) begin", *drive]
        + ['      #4 $display("%b", check);', "      #1 clock = 1;", "      #5 clock = 0;", "    end"]
        + ["    $finish;", "  end", "endmodule", ""]
    )


def simulated(asked, inputs, steps, powered, folder):
    """What the bench prints."""
    (folder / "bench.v").write_text(bench(asked, inputs, steps, powered, "rows.txt"))
    files = ["bench.v", asked.netlist.resolve()]
    subprocess.run(["iverilog", "-s", "replay", "-o", "bench.out", *files], cwd=folder, check=True)
    run = subprocess.run(["vvp", "-n", "bench.out"], cwd=folder, check=True, capture_output=True, text=True)
    return [line for line in run.stdout.split() if line in "01xz"]


def powered_up(asked, inputs, folder):
    """The registers of all instances that have unknown bits at power-up, each with its value where these are 0."""
    simulated(asked, inputs, 0, [], folder)
    waveform = Waveform((folder / "powered.vcd").read_text())
    first = next(waveform.times())
    found = []
    for path, names in waveform.scopes.items():
        inner = path.split(".")[2:]
        for name, (code, size, kind) in names.items():
            value = first.get(code, "x")
            if kind == "reg" and re.search("[xXzZ]", value):
                found.append((".".join(map(escaped, [*inner, name])), widened(value, size)))
    return found


def replayed(asked, folder):
    """The checker's bit in each cycle of the waveform, and there the bit that the waveform gives, if it does."""
    inputs = inputs_of(asked.netlist.read_text(), asked.top)
    inputs.pop(asked.clock, None)
    waveform = Waveform(asked.trace.read_text())
    wanted = [asked.clock, *inputs]
    scopes = [waveform.scopes.get(asked.scope, {})] if asked.scope else waveform.scopes.values()
    scope = next((found for found in scopes if all(name in found for name in wanted)), None)
    if scope is None:
        sys.exit(f"no scope of {asked.trace} has {', '.join(wanted)}")
    signals = [scope[name] for name in inputs]
    given = [scope[asked.check]] if asked.check in scope else []
    rows = waveform.rows(signals + given, scope[asked.clock][0])
    reset = []
    if asked.reset:
        name, _, active = asked.reset.rpartition("=")
        held = "".join(active if name == each else "0" * size for each, (_, size, _) in zip(inputs, signals))
        reset = [held] * asked.reset_cycles
    driven = reset + ["".join(row[: len(inputs)]) for row in rows]
    (folder / "rows.txt").write_text("\n".join(driven) + "\n")
    shown = simulated(asked, inputs, len(driven), powered_up(asked, inputs, folder), folder)
    return shown[len(reset) :], [row[-1] for row in rows] if given else None


def main():
    parser = argparse.ArgumentParser(description=__doc__, formatter_class=argparse.RawDescriptionHelpFormatter)
    parser.add_argument("netlist", type=pathlib.Path)
    parser.add_argument("trace", type=pathlib.Path)
    parser.add_argument("--top", required=True)
    parser.add_argument("--clock", required=True)
    parser.add_argument("--check", required=True)
    parser.add_argument("--reset", metavar="R=V", help="input R at V in the reset cycles")
    parser.add_argument("--reset-cycles", type=int, default=1)
    parser.add_argument("--scope", help="default: the first that has all signals")
    asked = parser.parse_args()
    with tempfile.TemporaryDirectory() as folder:
        shown, given = replayed(asked, pathlib.Path(folder))
    if "1" not in shown:
        print(f"cycles {len(shown)}, {asked.check} is never 1")
        return 1
    first, last = shown.index("1"), len(shown) - 1
    print(f"cycles {len(shown)}, {asked.check} is 1 first in cycle {first}" + (", the last" if first == last else ""))
    if given is not None and given[: first + 1] != shown[: first + 1]:
        print(f"the waveform has another {asked.check}")
        return 1
    return 0 if first == last else 1


if __name__ == "__main__":
    sys.exit(main())
