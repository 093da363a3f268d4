#!/usr/bin/env python3
"""Measures the programs hut and mend_one: rows a second, peak memory, the least stack that serves, and use of the heap.

usage: tools/measure.py     after './run hut < /dev/null' and './run mend_one'; it needs GNU time and valgrind
"""
import random
import re
import subprocess
import sys
import tempfile
import time
from pathlib import Path

ROOT = Path(__file__).resolve().parent.parent
HUT = ROOT / "crates/hut/out/hut"
MEND_ONE = ROOT / "crates/mend_one/out/mend_one"
SET = "qpzry9x8gf2tvdw0s3jn54khce6mua7l"
GENERATOR = [30, 7, 24, 19]  # below x^4, highest power first
ROWS = 4369  # as many rows of fifteen bytes as the hut reads
RUNS = 301


def product(a, b):
    result = 0
    while b:
        if b & 1:
            result ^= a
        a, b = a << 1, b >> 1
        if a & 32:
            a ^= 41
    return result


def step(residue, symbol):
    top = residue[0]
    return [x ^ product(top, g) for x, g in zip(residue[1:] + [symbol], GENERATOR)]


def sealed(row):
    residue = [0, 0, 0, 1]
    for symbol in row + [0, 0, 0, 0]:
        residue = step(residue, symbol)
    return row + residue[:3] + [residue[3] ^ 1]


def sheet(wrong, unknown, share):
    """Sealed rows of times before midnight; in a share of them so many letters are wrong, and so many unknown."""
    dice = random.Random(7)
    lines = []
    for _ in range(ROWS):
        tenths = dice.randrange(864000)
        row = [dice.randrange(32) for _ in range(4)] + [tenths >> s & 31 for s in (15, 10, 5, 0)]
        text = [SET[v] for v in sealed(row)]
        if dice.random() < share:
            places = dice.sample(range(12), wrong + unknown)
            for p in places[:wrong]:
                text[p] = SET[SET.index(text[p]) ^ dice.randrange(1, 32)]
            for p in places[wrong:]:
                text[p] = "?"
        text = "".join(text)
        lines.append(f"{text[:4]} {text[4:8]} {text[8:]}\n")
    return "".join(lines).encode()


def run(program, data):
    return subprocess.run([program], input=data, stdout=subprocess.PIPE, check=True).stdout


def least_seconds(program, data):
    """The least of several runs: what other programs take of the processor adds to the rest."""
    times = []
    with tempfile.TemporaryFile() as file:
        file.write(data)
        for _ in range(RUNS):
            file.seek(0)
            start = time.perf_counter()
            subprocess.run([program], stdin=file, stdout=subprocess.DEVNULL, check=True)
            times.append(time.perf_counter() - start)
    return min(times)


def instructions(program, data):
    """Of these no other program takes any."""
    with tempfile.TemporaryDirectory() as folder:
        callgrind = ["valgrind", "--tool=callgrind", f"--callgrind-out-file={folder}/out", program]
        done = subprocess.run(callgrind, input=data, stdout=subprocess.DEVNULL, stderr=subprocess.PIPE)
    return int(re.search(rb"Collected : (\d+)", done.stderr)[1])


def peak_kilobytes(program, data):
    done = subprocess.run(["/usr/bin/time", "-v", program], input=data, stdout=subprocess.DEVNULL, stderr=subprocess.PIPE)
    return int(re.search(rb"Maximum resident set size \(kbytes\): (\d+)", done.stderr)[1])


def least_stack(program, data):
    """In steps of a page, the least stack with which twenty runs do well: where a stack begins differs from run to run."""
    wanted = run(program, data)
    for kilobytes in range(4, 8192, 4):
        shell = ["sh", "-c", f"ulimit -s {kilobytes}; exec env -i {program}"]
        for _ in range(20):
            done = subprocess.run(shell, input=data, stdout=subprocess.PIPE, stderr=subprocess.DEVNULL)
            if done.returncode != 0 or done.stdout != wanted:
                break
        else:
            return kilobytes
    return None


def heap(program, data):
    done = subprocess.run(["valgrind", program], input=data, stdout=subprocess.DEVNULL, stderr=subprocess.PIPE)
    total = re.search(rb"total heap usage: (.*)", done.stderr)[1].decode()
    with tempfile.NamedTemporaryFile() as out:
        massif = ["valgrind", "--tool=massif", "--stacks=yes", "--peak-inaccuracy=0", "--max-snapshots=1000", f"--massif-out-file={out.name}"]
        subprocess.run(massif + [program], input=data, stdout=subprocess.DEVNULL, stderr=subprocess.DEVNULL)
        text = Path(out.name).read_text()
    heap_peak = max(map(int, re.findall(r"mem_heap_B=(\d+)", text)))
    stack_peak = max(map(int, re.findall(r"mem_stacks_B=(\d+)", text)))
    return f"{total}; at most {heap_peak} bytes of heap at a time, {stack_peak} bytes of stack"


def main():
    for program in (HUT, MEND_ONE):
        if not program.exists():
            sys.exit(f"{program} is not built")
    start = least_seconds(HUT, b"")
    start_instructions = instructions(HUT, b"")
    print(f"hut, no row: {start * 1e3:.2f} ms")
    for name, data in [
        ("all rows sound", sheet(0, 0, 0)),
        ("a quarter with one wrong", sheet(1, 0, 0.25)),
        ("one wrong and one unknown in each", sheet(1, 1, 1)),
        ("two wrong in each", sheet(2, 0, 1)),
        ("four unknown in each", sheet(0, 4, 1)),
    ]:
        shown = run(HUT, data)
        assert shown.count(b"\n") == ROWS
        refused = sum(line.split()[1] != b"0" for line in shown.splitlines())
        seconds = least_seconds(HUT, data)
        each = (seconds - start) / ROWS
        count = (instructions(HUT, data) - start_instructions) // ROWS
        print(f"hut, {ROWS} rows, {name}, {refused} refused: {seconds * 1e3:.2f} ms")
        print(f"    each row {each * 1e9:.0f} ns, {1 / each:.0f} rows a second, {count} instructions a row")
    data = sheet(1, 1, 1)
    print(f"hut, peak memory: {peak_kilobytes(HUT, b'')} KB for no row, {peak_kilobytes(HUT, data)} KB for {ROWS}")
    print(f"mend_one, peak memory: {peak_kilobytes(MEND_ONE, b'')} KB")
    print(f"hut, least stack: {least_stack(HUT, data)} KB")
    print(f"mend_one, least stack: {least_stack(MEND_ONE, b'')} KB")
    print(f"hut, by valgrind: {heap(HUT, data)}")
    print(f"mend_one, by valgrind: {heap(MEND_ONE, b'')}")


main()
