#!/usr/bin/env python3
"""Times `desync clock` and `desync run` beside other simulators, and compares all traces.

It makes netlists by make_netlist.py and make_circuit.py in a folder of its own, and runs each
simulator on the same netlist and the same vectors. A simulator that is not installed is left out:
Icarus Verilog (iverilog, vvp), Verilator, Yosys by its C++ simulation (yosys, g++), and
interpreter.cpp and bytes.cpp (g++).
Each time is the median of some runs from the start of the process to its end, in seconds, with
reading and printing; compiling a netlist for a simulator is not counted. The exit status is 1
where two traces differ.
"""

import argparse
import os
import shutil
import statistics
import subprocess
import sys
import tempfile
import time

HERE = os.path.dirname(os.path.abspath(__file__))
PROGRAM = os.path.join(os.path.dirname(HERE), "crates", "desync", "out", "desync")
SIZES = [
    ("random 100", 10000, ["random", "100"]),
    ("random 1000", 2000, ["random", "1000"]),
    ("random 4000", 1000, ["random", "4000"]),
    ("pipeline 16x8x4", 10000, ["pipeline", "16", "8", "4"]),
    ("pipeline 20x25x20", 10000, ["pipeline", "20", "25", "20"]),
    ("mapped 10000", 2000, ["mapped", "10000"]),
    ("pipeline 64x32x8", 1000, ["pipeline", "64", "32", "8"]),
    ("pipeline 64x60x16", 200, ["pipeline", "64", "60", "16"]),
    ("mul32", 20000, ["mul32"]),
]
# What make_circuit.py makes.
CIRCUITS = ("cpu", "mul32", "sha")
SMALLEST = ("random 100", "pipeline 16x8x4")


class Design:
    """A netlist, with its tables by level. The nets have names that are Verilog's too."""

    def __init__(self, path):
        self.inputs, self.outputs, self.tables, self.registers = [], [], [], []
        with open(path) as file:
            for line in file:
                words = line.replace("[", "_").replace("]", "").split()
                if words[0] == ".inputs":
                    self.inputs = words[2:]
                elif words[0] == ".outputs":
                    self.outputs = words[1:]
                elif words[0] == ".names":
                    self.tables.append((words[-1], words[1:-1], []))
                elif words[0] == ".latch":
                    self.registers.append((words[1], words[2], words[5]))
                elif not words[0].startswith("."):
                    self.tables[-1][2].append(words[0])
        self.nets = self.inputs + [q for _, q, _ in self.registers] + [t[0] for t in self.tables]
        self.by_level()

    def by_level(self):
        """Sorts the tables so that each comes after those that drive its inputs."""
        level = {net: 0 for net in self.inputs + [q for _, q, _ in self.registers]}
        left = self.tables
        self.tables = []
        while left:
            ready = [table for table in left if all(net in level for net in table[1])]
            level.update((table[0], 1) for table in ready)
            self.tables += ready
            left = [table for table in left if table[0] not in level]


def verilog(design):
    """The design as a module: the vector in, the outputs and registers out, the first bit left."""
    width, outs, regs = len(design.inputs), len(design.outputs), len(design.registers)
    yield "module dut(input clk, input [%d:0] vec," % (width - 1)
    yield "  output [%d:0] outs, output [%d:0] regs);" % (outs - 1, regs - 1)
    for net in design.inputs + [table[0] for table in design.tables]:
        yield "  wire %s;" % net
    for _, net, start in design.registers:
        yield "  reg %s = 1'b%s;" % (net, start)
    yield "  assign {%s} = vec;" % ", ".join(design.inputs)
    for net, inputs, rows in design.tables:
        sum_of_products = " | ".join(product(row, inputs) for row in rows)
        yield "  assign %s = %s;" % (net, sum_of_products or "1'b0")
    yield "  always @(posedge clk) begin"
    for data, net, _ in design.registers:
        yield "    %s <= %s;" % (net, data)
    yield "  end"
    yield "  assign outs = {%s};" % ", ".join(design.outputs)
    yield "  assign regs = {%s};" % ", ".join(net for _, net, _ in design.registers)
    yield "endmodule"


def product(row, inputs):
    """The nets that a row asks for."""
    nets = [("~" if bit == "0" else "") + net for bit, net in zip(row, inputs) if bit != "-"]
    return "(%s)" % (" & ".join(nets) or "1'b1")


def test_bench(design, turns):
    """Runs the module on the vectors of `vectors.txt` and prints the trace."""
    width, outs, regs = len(design.inputs), len(design.outputs), len(design.registers)
    return """module bench;
  reg clk = 0;
  reg [%d:0] vec;
  wire [%d:0] outs;
  wire [%d:0] regs;
  reg [%d:0] vecs [0:%d];
  integer k;
  dut dut(.clk(clk), .vec(vec), .outs(outs), .regs(regs));
  initial begin
    $readmemb("vectors.txt", vecs);
    for (k = 0; k < %d; k = k + 1) begin
      vec = vecs[k];
      #1;
      $write("%%0d %%b %%b\\n", k, outs, regs);
      clk = 1;
      #1;
      clk = 0;
      #1;
    end
    $write("end %%b\\n", regs);
    $finish;
  end
endmodule
""" % (width - 1, outs - 1, regs - 1, width - 1, turns - 1, turns)


CXXRTL_MAIN = """#include "dut.cc"
#include <fstream>
#include <iostream>
#include <string>
template <size_t N> static const cxxrtl::value<N> &now(const cxxrtl::value<N> &v) { return v; }
template <size_t N> static const cxxrtl::value<N> &now(const cxxrtl::wire<N> &w) { return w.curr; }
template <size_t N> static void put(std::string &line, const cxxrtl::value<N> &v) {
    for (size_t i = N; i-- > 0;) line += char('0' + (v.data[i / 32] >> (i % 32) & 1));
}
int main() {
    cxxrtl_design::p_dut dut;
    std::ifstream vectors("vectors.txt");
    std::string vector, line;
    dut.p_clk.set<bool>(false);
    dut.step();
    for (long turn = 0; vectors >> vector; turn++) {
        auto &vec = dut.p_vec;
        for (auto &chunk : vec.data) chunk = 0;
        for (size_t i = 0; i < vector.size(); i++) {
            size_t bit = vector.size() - 1 - i;
            if (vector[i] == '1') vec.data[bit / 32] |= 1u << (bit % 32);
        }
        dut.step();
        line = std::to_string(turn) + " ";
        put(line, now(dut.p_outs));
        line += " ";
        put(line, now(dut.p_regs));
        puts(line.c_str());
        dut.p_clk.set<bool>(true);
        dut.step();
        dut.p_clk.set<bool>(false);
        dut.step();
    }
    line = "end ";
    put(line, now(dut.p_regs));
    puts(line.c_str());
}
"""


def interpreter_input(design, vectors):
    """What interpreter.cpp reads."""
    place = {net: i for i, net in enumerate(design.nets)}
    yield "%d %d %d %d %d" % tuple(
        map(len, (design.nets, design.tables, design.registers, design.inputs, design.outputs))
    )
    for net, inputs, rows in design.tables:
        yield "%d 1 %d" % (place[net], len(inputs))
        yield " ".join(str(place[it]) for it in inputs)
        yield "%d %s" % (len(rows), " ".join(rows))
    for data, net, start in design.registers:
        yield "%d %d %s" % (place[data], place[net], start)
    for nets in (design.inputs, design.outputs):
        yield " ".join(str(place[net]) for net in nets)
    yield vectors


def write(path, text):
    with open(path, "w") as file:
        file.write(text)


def read(path):
    with open(path) as file:
        return file.read()


def are_there(*programs):
    return all(shutil.which(program) for program in programs)


def prepare(folder, turns):
    """The commands that are there, each with the file of its standard input or None."""
    design = Design(os.path.join(folder, "net.blif"))
    vectors = read(os.path.join(folder, "net.vec"))
    write(os.path.join(folder, "dut.v"), "\n".join(verilog(design)) + "\n")
    write(os.path.join(folder, "bench.v"), test_bench(design, turns))
    write(os.path.join(folder, "vectors.txt"), vectors)
    write(os.path.join(folder, "main.cc"), CXXRTL_MAIN)
    write(os.path.join(folder, "input.txt"), "\n".join(interpreter_input(design, vectors)))
    ready = {}
    for name, (programs, commands, run) in builds().items():
        if are_there(*programs) and all(built(name, folder, command) for command in commands):
            ready[name] = (run, "input.txt" if name.startswith("C++") else None)
    return ready


def builds():
    """For each simulator the programs that it wants, what builds it, and what runs it."""
    verilator = ["verilator", "--binary", "-O3", "-Wno-fatal", "--top-module", "bench"]
    passes = "read_verilog dut.v; hierarchy -top dut; proc; opt; write_cxxrtl dut.cc"
    return {
        "C++ rows": (
            ["g++"],
            [["g++", "-O2", "-o", "rows", os.path.join(HERE, "interpreter.cpp")]],
            ["./rows"],
        ),
        "C++ bytes": (
            ["g++"],
            [["g++", "-O2", "-o", "bytes", os.path.join(HERE, "bytes.cpp")]],
            ["./bytes"],
        ),
        "iverilog": (
            ["iverilog", "vvp"],
            [["iverilog", "-g2005", "-o", "icarus", "dut.v", "bench.v"]],
            ["vvp", "-n", "icarus"],
        ),
        "verilator": (
            ["verilator", "g++", "make"],
            [verilator + ["bench.v", "dut.v"]],
            ["./obj_dir/Vbench"],
        ),
        "yosys": (
            ["yosys", "g++"],
            [
                ["yosys", "-q", "-p", passes],
                ["g++", "-O2", "-std=c++14", "-I", cxxrtl_folder(), "-o", "cxxrtl", "main.cc"],
            ],
            ["./cxxrtl"],
        ),
    }


def cxxrtl_folder():
    """Where the headers of the C++ simulation of Yosys stand."""
    yosys = shutil.which("yosys") or "/usr/bin/yosys"
    return os.path.join(os.path.dirname(os.path.dirname(yosys)), "share", "yosys", "include")


def built(name, folder, command):
    """Builds, and says where that fails."""
    ended = subprocess.run(command, cwd=folder, stdout=subprocess.PIPE, stderr=subprocess.STDOUT)
    if ended.returncode:
        print("%s is left out: %s" % (name, ended.stdout.decode("latin-1")[-300:]), file=sys.stderr)
    return ended.returncode == 0


def timed(command, folder, stdin, times):
    """The median of the seconds of some runs, and what the last one printed."""
    seconds = []
    for _ in range(times):
        with open(os.path.join(folder, stdin) if stdin else os.devnull, "rb") as given:
            began = time.monotonic()
            ended = subprocess.run(command, cwd=folder, stdin=given, stdout=subprocess.PIPE)
            seconds.append(time.monotonic() - began)
    return statistics.median(seconds), trace_of(ended.stdout)


def trace_of(printed):
    """The lines up to that of the last registers; Verilator says behind it where it ended."""
    before, end, behind = printed.partition(b"end ")
    return before + end + behind.partition(b"\n")[0]


def measure(name, turns, words, program, times):
    """One line of the table. It answers whether all traces are equal."""
    with tempfile.TemporaryDirectory() as folder:
        maker = "make_circuit.py" if words[0] in CIRCUITS else "make_netlist.py"
        make = [sys.executable, os.path.join(HERE, maker), "--turns", str(turns)]
        make += [os.path.join(folder, "net")] + words
        subprocess.run(make, stdout=subprocess.DEVNULL, check=True)
        runs = {word: ([program, word, "net.blif", "net.vec"], None) for word in ("clock", "run")}
        runs.update(prepare(folder, turns))
        cells, traces = {}, {}
        for it, (command, stdin) in runs.items():
            cells[it], traces[it] = timed(command, folder, stdin, times)
        other = [it for it in traces if traces[it] != traces["clock"]]
        row = [name, str(turns)] + ["%.3f" % cells[it] if it in cells else "-" for it in NAMES]
        print("| %s |" % " | ".join(row), flush=True)
        for it in other:
            print("the trace of %s differs from that of clock" % it)
        return not other


NAMES = ["clock", "run", "C++ rows", "C++ bytes", "iverilog", "verilator", "yosys"]


def main():
    parser = argparse.ArgumentParser(prog="run.py", description=__doc__)
    parser.add_argument("--program", default=PROGRAM, help="the built desync")
    parser.add_argument("--times", type=int, default=5, help="how many runs a median is of")
    parser.add_argument("--turns", type=int, help="as many vectors for each netlist")
    parser.add_argument("--few", action="store_true", help="the smallest netlists alone")
    parser.add_argument("--only", metavar="NAME", help="one netlist alone")
    asked = parser.parse_args()
    program = os.path.abspath(asked.program)
    if not os.access(program, os.X_OK):
        sys.exit("run.py: there is no program %s" % program)
    names = [name for name, _, _ in SIZES]
    if asked.only not in [None] + names:
        sys.exit("run.py: --only takes one of: %s" % ", ".join(names))
    head = ["netlist", "turns"] + NAMES
    print("| %s |" % " | ".join(head))
    print("|%s" % ("---|" * len(head)))
    equal = []
    for name, turns, words in SIZES:
        if asked.only in (None, name) and (name in SMALLEST or not asked.few):
            equal.append(measure(name, asked.turns or turns, words, program, asked.times))
    sys.exit(0 if all(equal) else 1)


if __name__ == "__main__":
    main()
