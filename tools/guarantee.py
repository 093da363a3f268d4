#!/usr/bin/env python3
"""The table of README's guarantee.

    python3 tools/guarantee.py                          the shares, worked out
    python3 tools/guarantee.py run crates/hut/out/hut   beside them, what the program answers on garbled rows

A row of the finish code has n = 12 characters, of which f are question marks and e others are wrong. Within 2e + f <= 4 the
program shows the row that was read out. Beyond, what it shows depends on whether the garbled row lies near some sound row. Rows
that are near one sound row are near no other, and each sound row has as many near it as any other, so their share of all rows is

    (sum over i <= t of C(n - f, i) * 31^i) / 32^(4 - f),    t = (4 - f) / 2, rounded down.

It is the chance that a row of letters drawn at random, f of them not understood, is shown as some row or refused with 17. The last
column has the chance that it is shown with no or one change, a question mark counting as a change unless it is filled in by a q:
all letters are right and at most one question mark changes, or one letter is wrong and none does. It is given for at most two
question marks: with three or four a row that was heard right is shown with so few changes only by chance too, and the number of
changes tells nothing."""
import random
import subprocess
import sys
from math import comb

ALPHABET = "qpzry9x8gf2tvdw0s3jn54khce6mua7l"
LENGTH, CHECKS, BOUND = 12, 4, 4
# the coefficients of x^4 + 30x^3 + 7x^2 + 24x + 19, lowest power first, without the leading 1
LOWER = [19, 24, 7, 30]
ROWS = 4000
SEED = 1


def times(a, b):
    """The product in GF(32): binary polynomials modulo t^5 + t^3 + 1."""
    product = 0
    while b:
        if b & 1:
            product ^= a
        a, b = a << 1, b >> 1
        if a & 32:
            a ^= 0b101001
    return product


def seal(symbols):
    """The row with its check symbols: the residue of the sealed row is the polynomial 1."""
    residue = [1, 0, 0, 0]
    for symbol in symbols + [0] * CHECKS:
        top = residue[-1]
        shifted = [symbol] + residue[:-1]
        residue = [below ^ times(top, lower) for below, lower in zip(shifted, LOWER)]
    missing = [(1 if power == 0 else 0) ^ coefficient for power, coefficient in enumerate(residue)]
    return symbols + missing[::-1]


def share(unknown):
    """How many of all rows with so many question marks are near a sound row."""
    most_wrong = (BOUND - unknown) // 2
    near = sum(comb(LENGTH - unknown, wrong) * 31**wrong for wrong in range(most_wrong + 1))
    return near, 32 ** (CHECKS - unknown)


def share_with_one_change():
    """How many of all rows with at most two question marks are near a sound row with at most one change.
    Any of the places can be the one that changes, a question mark or not."""
    return 1 + 31 * LENGTH, 32**CHECKS


def garbled(row, unknown, wrong, draw):
    """The row as it is typed, with so many question marks and so many other letters wrong."""
    places = draw.sample(range(LENGTH), unknown + wrong)
    typed = [ALPHABET[symbol] for symbol in row]
    for place in places[:unknown]:
        typed[place] = "?"
    for place in places[unknown:]:
        typed[place] = ALPHABET[draw.choice([v for v in range(32) if v != row[place]])]
    return "".join(typed)


def finish(row):
    """Sail number and whole seconds of a row, or none past the last tenth of a day."""
    sail, tenths = (sum(symbol * 32 ** (3 - i) for i, symbol in enumerate(row[at:at + 4])) for at in (0, 4))
    return (sail, tenths // 10) if tenths <= 863_999 else None


def measure(program, unknown, wrong):
    """What becomes of ROWS garbled rows: shown as they were read out, shown as another finish, refused."""
    draw = random.Random(f"{SEED} {unknown} {wrong}")
    rows = []
    while len(rows) < ROWS:
        row = seal([draw.randrange(32) for _ in range(8)])
        if finish(row):
            rows.append(row)
    typed = "".join(garbled(row, unknown, wrong, draw) + "\n" for row in rows)
    answers = subprocess.run([program], input=typed, capture_output=True, text=True, check=True).stdout.splitlines()
    assert len(answers) == ROWS
    right = other = refused = 0
    for row, answer in zip(rows, answers):
        _, number, _, sail, seconds = map(int, answer.split())
        if number:
            refused += 1
        elif (sail, seconds) == finish(row):
            right += 1
        else:
            other += 1
    return right, other, refused


def main():
    print("question marks   wrong letters mended   rows near a sound one   share      with at most one change")
    for unknown in range(BOUND + 1):
        near, of = share(unknown)
        few, of_all = share_with_one_change()
        shares = f"{100 * near / of:5.1f} %" + (f"   {100 * few / of_all:20.3f} %" if unknown <= 2 else "")
        print(f"{unknown:14}   {(BOUND - unknown) // 2:20}   {near:9} of {of:8}   {shares}")
    if sys.argv[1:2] == ["run"]:
        print()
        print(f"{ROWS} random rows each")
        print("question marks   wrong letters   as read out   another finish   refused")
        for unknown in range(BOUND + 1):
            most_wrong = (BOUND - unknown) // 2
            for wrong in range(most_wrong, most_wrong + 3):
                right, other, refused = (100 * count / ROWS for count in measure(sys.argv[2], unknown, wrong))
                print(f"{unknown:14}   {wrong:13}   {right:9.1f} %   {other:12.1f} %   {refused:5.1f} %")


main()
