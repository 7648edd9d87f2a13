"""Vectors of the two calls on points, made into the input of the program points_test and the lines that it must print.

    python3 tests/points-vectors.py crates/points_test/vectors-*.txt crates/points_test

writes the files stdin and stdout of that directory, from one file of vectors after the other. The head of the vectors
says what a line of them is, and the head of crates/points_test/src/main.rt what a call in stdin is. The right side of
each vector is a line of stdout.
"""
import os
import struct
import sys


def octets(word):
    """The bytes of a word: '-' or parts joined by '+', each hexadecimal or N*hexadecimal."""
    if word == "-":
        return b""
    whole = b""
    for part in word.split("+"):
        count, star, digits = part.rpartition("*")
        whole += bytes.fromhex(digits) * (int(count) if star else 1)
    return whole


def numbers(word):
    """The numbers of a word, '-' or joined by ',', four bytes each."""
    if word == "-":
        return b""
    return b"".join(struct.pack("<I", int(number)) for number in word.split(","))


def call(left):
    """The bytes of a call, from the left side of its vector."""
    name, curve, second, size = left.split()
    which, reading = {"psum": (0, numbers), "points": (1, octets)}[name]
    curve, second = octets(curve), reading(second)
    return struct.pack("<BIII", which, len(curve), len(second), int(size)) + curve + second


def main():
    if len(sys.argv) < 3:
        sys.exit(__doc__)
    *vectors, directory = sys.argv[1:]
    lines = []
    for name in vectors:
        with open(name) as file:
            lines += [line.rstrip("\n") for line in file if line.strip() and not line.startswith("#")]
    sides = [line.split(" = ") for line in lines]
    with open(os.path.join(directory, "stdin"), "wb") as file:
        file.write(b"".join(call(left) for left, _ in sides))
    with open(os.path.join(directory, "stdout"), "w") as file:
        file.write("".join(right + "\n" for _, right in sides))


main()
