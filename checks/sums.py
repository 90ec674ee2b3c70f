#!/usr/bin/env python3
"""Holds `clay chunks` and `clay recover` against the code's sums, recomputed here, for random stripes of several codes.

In each layer the uncoupled values of all nodes must have M weighted sums of zero, and up to 50 choices of at most M lost chunks
must be given back. Nothing is shared with the program. It prints a line for each code, and fails at the first that is wrong.
"""
import itertools
import os
import random
import subprocess

TOP = os.path.dirname(os.path.dirname(os.path.abspath(__file__)))
PROGRAM = os.path.join(TOP, 'crates', 'clay', 'out', 'clay')
CODES = [(2, 2, 3), (3, 2, 2), (4, 3, 2), (8, 4, 1), (10, 4, 1), (2, 8, 1), (16, 4, 1), (18, 2, 1), (5, 5, 1), (9, 6, 1)]


def product(a, b):
    result = 0
    while b:
        result ^= a if b & 1 else 0
        a = a << 1 ^ (0x11D if a & 0x80 else 0)
        b >>= 1
    return result


PRODUCTS = [[product(a, b) for b in range(256)] for a in range(256)]


def power(a, e):
    result = 1
    for _ in range(e):
        result = PRODUCTS[result][a]
    return result


def has_zero_sums(k, m, w, chunks):
    virtual = -(k + m) % m
    nodes = k + m + virtual
    columns = nodes // m
    powers = [[power(i, j) for j in range(m)] for i in range(nodes)]

    def coupled(node, layer, byte):
        if k <= node < k + virtual:
            return 0
        return chunks[node if node < k else node - virtual][layer * w + byte]

    def uncoupled(node, layer, byte):
        x, y = node % m, node // m
        stride = m ** (columns - 1 - y)
        digit = layer // stride % m
        if digit == x:
            return coupled(node, layer, byte)
        partner = coupled(y * m + digit, layer + (x - digit) * stride, byte)
        return coupled(node, layer, byte) ^ PRODUCTS[2][partner]

    for layer, byte in itertools.product(range(m ** columns), range(w)):
        values = [uncoupled(node, layer, byte) for node in range(nodes)]
        for j in range(m):
            total = 0
            for node in range(nodes):
                total ^= PRODUCTS[powers[node][j]][values[node]]
            if total:
                return False
    return True


def run(*words, text):
    done = subprocess.run([PROGRAM, *map(str, words)], input=text.encode(), capture_output=True)
    if done.returncode:
        raise SystemExit(f'{words}: status {done.returncode}, {done.stdout!r}')
    return done.stdout.decode().splitlines()


def main():
    # The first call builds the program where it has to.
    subprocess.run([os.path.join(TOP, 'clay'), 'chunks', '2', '2', '1'], input=b'0' * 16, stdout=subprocess.DEVNULL, check=True)
    for k, m, w in CODES:
        layers = m ** ((k + m + m - 1) // m)
        stripe = random.randbytes(k * layers * w)
        lines = run('chunks', k, m, w, text=stripe.hex() + '\n')
        chunks = [bytes.fromhex(line) for line in lines]
        assert len(chunks) == k + m and b''.join(chunks[:k]) == stripe, (k, m, w)
        assert has_zero_sums(k, m, w, chunks), (k, m, w)
        losses = [lost for count in range(m + 1) for lost in itertools.combinations(range(k + m), count)]
        for lost in random.sample(losses, min(50, len(losses))):
            left = ''.join('-\n' if i in lost else line + '\n' for i, line in enumerate(lines))
            assert run('recover', k, m, w, text=left) == lines, (k, m, w, lost)
        print(f'{k} {m} {w}: {layers} layers, the sums are zero, {min(50, len(losses))} choices of losses were given back')


main()
