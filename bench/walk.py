#!/usr/bin/env python3
"""How the loop over messages (`messages_read` of range_reader) is compiled, as a table in Markdown: compares and
instructions, on x86-64 and on two processors of 32 bits.

`rt lib`, in crates/host, hands one LLVM module to the kit's clang. A copy of the kit, whose clang is a script, keeps
it. Then `messages_read` is set `noinline`, so that its loop stands alone, and the module is compiled for each processor.
The kit knows a `usize` of 64 bits alone, so places and lengths are 64 bits on the small processors too.

    ./walk.py [--module FILE] [--keep DIR]

--module: a module that was kept, so nothing is built. --keep: a folder for the module, LLVM's code and the assembly.

The loop is every block that lies on a cycle: the compiler makes several loops of one, by what stays the same in it.
Compares (`icmp` of integers) are counted in LLVM's code after its passes, instructions in the assembly; a call is one.
The last row is the shortest way around that loads a byte, so some messages take more. A loop may load none: it is for a
shard that no message can be in.
"""
import argparse
import collections
import heapq
import os
import pathlib
import re
import shutil
import subprocess
import sys
import tempfile

ROOT = pathlib.Path(__file__).resolve().parent.parent
CLANG = pathlib.Path("toolchain/bin/clang")  # in the kit
RT = (pathlib.Path("bin/rt"), pathlib.Path("bin/rtlib.py"))  # rt takes the kit that its file lies in
WALK = '"range_reader::messages::messages_read"'
PROCESSORS = {
    # with the options of `rt lib`
    "x86-64": "--target=x86_64-unknown-linux-gnu -march=x86-64 -fPIC -O3 -ffunction-sections -fdata-sections"
              " -mllvm -trap-unreachable -mllvm -no-trap-after-noreturn -mllvm -no-x86-call-frame-opt"
              " -mllvm -disable-machine-licm -mllvm -disable-postra-machine-licm -mllvm -sink-common-insts=false",
    "ARMv7": "--target=armv7a-none-eabi -march=armv7-a -O3",
    "RISC-V 32": "--target=riscv32-unknown-elf -march=rv32imac -mabi=ilp32 -O3",
}
ROWS = ("compares of 64 bits in the loop", "compares of fewer bits in the loop", "instructions in the loop",
        "instructions for a message that isn't ours")
# How a function is written: its head, its end, a block's label, where a line goes to, and a block's last line when it
# doesn't run on into the next block (in LLVM's code: any).
Form = collections.namedtuple("Form", "head end label goes last")
NAME = r'("[^"]*"|[-\w.$]+)'
LLVM = Form(rf"^define .*@{WALK}\(.*(?=#\d+ {{$)", "\n}", rf"^{NAME}:", rf"label %{NAME}", "")
ASSEMBLY = Form(rf"^{WALK}:", "\n.Lfunc_end", r"^(?:\.LBB\d+_|[#@] %bb\.)(\d+):", r"\.LBB\d+_(\d+)",
                r"\t(?:b|bx|j|jr|jmpq?|retq?|tail|ud2|udf|unimp)\b|\t(?:pop|ldm)\t.*pc}")
COMPARE = r"= icmp (?:samesign )?\w+ i(\d+) "
BYTE = r"\t(?:mov[sz]b|ldrs?b|lbu?\b)(?!.*sp\b)"  # loads a byte, and not from the stack


def kit():
    if "RATTLE_HOME" in os.environ:
        return pathlib.Path(os.environ["RATTLE_HOME"]).resolve()
    return pathlib.Path(shutil.which("rt") or sys.exit("no RATTLE_HOME, and no rt on PATH")).resolve().parent.parent


def build(module, copy):
    """The copy is links into the kit; only the folders on the way to its clang and to rt, and rt, are new ones."""
    new = (CLANG, *CLANG.parents, *RT, *RT[0].parents)
    for folder in sorted({*CLANG.parents, *RT[0].parents}):
        (copy / folder).mkdir()
        for entry in (kit() / folder).iterdir():
            if folder / entry.name not in new:
                (copy / folder / entry.name).symlink_to(entry)
    for file in RT:
        shutil.copy(kit() / file, copy / file)
    # the kit clears the environment before it calls clang, so the script has the paths in it
    (copy / CLANG).write_text(f"""#!/bin/sh
for word; do case $word in *.bc) cp "$word" '{module}' ;; esac; done
exec '{kit() / CLANG}' "$@"
""")
    (copy / CLANG).chmod(0o755)
    subprocess.run([copy / RT[0], "lib"], cwd=ROOT / "crates/host", stdout=sys.stderr, check=True)


def clang(source, target, *options):
    command = [kit() / CLANG, *options, "-Wno-override-module", "-S", "-x", "ir", source, "-o", target]
    subprocess.run(command, check=True)


def stand_alone(module, given):
    """Writes the module as text, `messages_read` not inlined and no function bound to x86-64."""
    clang(module, given, "-emit-llvm", "-Xclang", "-disable-llvm-passes")
    text, found = re.subn(LLVM.head, r"\g<0>noinline ", given.read_text(), flags=re.M)
    assert found, "the module has no messages_read"
    given.write_text(re.sub(r' "target-cpu"="[^"]*"', "", text))


def blocks(text, form):
    """The lines of each block, and where it goes: {next block: lines up to there}. A branch that is taken ends it."""
    start = re.search(form.head, text, re.M).end()
    _, *parts = re.split(form.label, text[start:text.index(form.end, start)], flags=re.M)
    codes = {name: re.findall(r"^[ \t]+[a-z%].*", part, re.M) for name, part in zip(parts[::2], parts[1::2])}
    ways = {name: {} for name in codes}
    for (name, code), after in zip(codes.items(), [*codes][1:] + [None]):
        for n, line in enumerate(code, 1):
            assert "LJTI" not in line, "a jump table, whose ways are not read here"
            for to in re.findall(form.goes, line):
                ways[name].setdefault(to, n)
        if after and not re.match(form.last, "".join(code[-1:])):
            ways[name].setdefault(after, len(code))
    return codes, ways


def around(ways, start):
    """The fewest lines from a block back to itself; None if it lies on no cycle."""
    todo, done = [(0, start)], set()
    while todo:
        cost, block = heapq.heappop(todo)
        if block == start and cost:
            return cost
        if block not in done:
            done.add(block)
            for after, more in ways[block].items():
                heapq.heappush(todo, (cost + more, after))
    return None


def loop(text, form):
    """For each block on a cycle its lines, and the fewest lines around."""
    codes, ways = blocks(text, form)
    turns = ((code, around(ways, name)) for name, code in codes.items())
    return [(code, turn) for code, turn in turns if turn]


def column(given, processor, room):
    options = PROCESSORS[processor].split()
    code, assembly = room / f"{processor}.ll", room / f"{processor}.s"
    clang(given, code, *options, "-emit-llvm")
    clang(code, assembly, *options, "-Xclang", "-disable-llvm-passes")
    bits = [int(n) for lines, _ in loop(code.read_text(), LLVM) for n in re.findall(COMPARE, "\n".join(lines))]
    turns = loop(assembly.read_text(), ASSEMBLY)
    least = min((turn for lines, turn in turns if re.search(BYTE, "\n".join(lines))), default="-")
    return sum(b == 64 for b in bits), sum(b < 64 for b in bits), sum(len(lines) for lines, _ in turns), least


def main():
    parser = argparse.ArgumentParser(description=__doc__, formatter_class=argparse.RawDescriptionHelpFormatter)
    parser.add_argument("--module", type=pathlib.Path)
    parser.add_argument("--keep", type=pathlib.Path)
    asked = parser.parse_args()
    with tempfile.TemporaryDirectory() as made:
        room = (asked.keep or pathlib.Path(made)).resolve()
        room.mkdir(parents=True, exist_ok=True)
        module, given = asked.module or room / "module.bc", room / "given.ll"
        if not asked.module:
            build(module, pathlib.Path(made, "kit"))
        stand_alone(module, given)
        columns = [column(given, processor, room) for processor in PROCESSORS]
    print(f"| {' | '.join(['', *PROCESSORS])} |\n|{'---|' * (len(PROCESSORS) + 1)}")
    for row, *cells in zip(ROWS, *columns):
        print(f"| {' | '.join([row, *map(str, cells)])} |")


if __name__ == "__main__":
    main()
