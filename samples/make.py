#!/usr/bin/env python3
"""Writes the sample days beside this script: six small ones, one that is refused, and a valley's day.

The valley has 300 firms and 2,000 invoices. Firms differ much in size; each one buys mostly from a few regular
suppliers, most of them larger, and pays amounts from some ten to some hundred thousand. The numbers come from a
fixed seed, so a second run writes the same bytes. docs/FORMATS.md says what the bytes are.
"""
import pathlib
import random
import struct

HERE = pathlib.Path(__file__).parent

SMALL = {
    "pair": (2, "0 1 10, 1 0 7"),
    "three": (3, "0 1 5, 1 2 4, 2 0 6"),
    "chain": (3, "0 1 5, 1 2 4"),
    "two_rings": (4, "0 1 10, 1 2 6, 2 0 5, 1 3 8, 3 0 4"),
    "pair_and_three": (4, "0 1 3, 1 0 3, 1 2 3, 2 3 3, 3 1 3"),
    "pair_or_three": (3, "0 1 4, 1 2 4, 2 0 4, 1 0 4"),
    "refused": (3, "0 1 5, 1 2 4, 2 2 6"),
}


def write(name, firms, invoices):
    rows = b"".join(struct.pack("<HHQ", *invoice) for invoice in invoices)
    (HERE / f"{name}.day").write_bytes(struct.pack("<H", firms) + rows)


def parsed(text):
    return [tuple(int(word) for word in invoice.split()) for invoice in text.split(",")]


def drawn(rng, weights):
    """A place of `weights`, drawn in proportion."""
    left = rng.random() * sum(weights)
    for place, weight in enumerate(weights):
        left -= weight
        if left < 0:
            return place
    return len(weights) - 1


def valley(firms, invoices):
    rng = random.Random(300)
    size = [1.0 / (1 + rank) ** 0.7 for rank in range(firms)]
    order = sorted(range(firms), key=lambda _: rng.random())
    size = [size[place] for place in order]
    suppliers = [[drawn(rng, size) for _ in range(6)] for _ in range(firms)]
    rows = []
    while len(rows) < invoices:
        buyer = drawn(rng, size)
        regular = rng.random() < 0.8
        seller = suppliers[buyer][int(rng.random() * 6)] if regular else drawn(rng, size)
        if seller != buyer:
            rows.append((buyer, seller, int(1000 * 10 ** (4 * rng.random()))))
    return rows


def main():
    for name, (firms, text) in SMALL.items():
        write(name, firms, parsed(text))
    write("valley", 300, valley(300, 2000))


if __name__ == "__main__":
    main()
