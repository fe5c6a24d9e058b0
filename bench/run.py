#!/usr/bin/env python3
"""The Rust original and the library on the same inputs, as a table in Markdown: instructions of a call, and the ratio by
instructions and by time.

A number of instructions is the difference of two runs of `bench` under callgrind that make the same states ready and differ
only in the number of calls, divided by that difference. ../docs/BENCHMARK.md tells how to build and what is counted.

    ./run.py [ROW ...]
"""
import pathlib
import re
import subprocess
import sys

BENCH = str(pathlib.Path(__file__).resolve().parent / "target/unchecked/bench")


def output(*command):
    return subprocess.run(command, stdout=subprocess.PIPE, stderr=subprocess.STDOUT, text=True, check=True).stdout


def collected(row, side, n):
    out = output("valgrind", "--tool=callgrind", "--callgrind-out-file=/dev/null", BENCH, row, side, str(n))
    return int(re.search(r"Collected : (\d+)", out).group(1))


def a_call(row, side, states):
    few = states // 6
    return (collected(row, side, states) - collected(row, side, few)) / (states - few)


def a_message(total, messages):
    return f"{total / messages:,.0f}" if messages else ""


def times():
    """The text of a row and its ratio, and the last line, about the clock."""
    lines = output(BENCH, "time").splitlines()
    cells = [[c.strip() for c in l.split("|")[1:-1]] for l in lines if l.startswith("|")]
    return {c[0]: c[3] for c in cells}, lines[-1]


def main(wanted):
    assert "DIFFERENT" not in output(BENCH, "check")
    by_time, clock = times()
    print("| row | Rust, a call | a message | here, a call | a message | here / Rust | by time |")
    print("|---|---|---|---|---|---|---|")
    for line in output(BENCH, "rows").splitlines():
        row, states, messages, text = line.split("\t")
        states, messages = int(states), int(messages)
        if wanted and row not in wanted:
            continue
        rust = a_call(row, "rust", states)
        cells = [text, f"{rust:,.0f}", a_message(rust, messages)]
        if row == "fill":
            cells += [""] * 4
        else:
            here = a_call(row, "ours", states)
            cells += [f"{here:,.0f}", a_message(here, messages), f"{here / rust:.2f}", by_time[text]]
        print(f"| {' | '.join(cells)} |", flush=True)
    print(f"\n{clock}")


if __name__ == "__main__":
    main(sys.argv[1:])
