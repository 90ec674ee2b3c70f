#!/usr/bin/env python3
"""Reads a stripe of 4 data chunks, 512 bytes, gives it 2 parity chunks, rebuilds each chunk from parts of the others, recovers two, and
writes the six chunks in hexadecimal digits, a line each.

    lost_chunk.py LIBRARY < STRIPE

LIBRARY is the shared library that library/Makefile makes, as /usr/local/lib/libclay.so.
"""
import ctypes
import sys

K, M, W = 4, 2, 16
DONE = 0


class Numbers(ctypes.Structure):
    """`struct clay_numbers` of include/clay.h."""
    _fields_ = [(name, ctypes.c_uint32) for name in
                ('chunks', 'rows', 'columns', 'virtual_nodes', 'layers', 'chunk_len', 'stripe_len', 'part_len')]


def given(data):
    """A pointer and a length of bytes that a call reads."""
    return (ctypes.c_uint8 * len(data)).from_buffer_copy(data), ctypes.c_size_t(len(data))


def room(element, count):
    """A pointer and a length of what a call writes."""
    return (element * count)(), ctypes.c_size_t(count)


class Clay:
    """The calls of the library, for one code."""

    def __init__(self, path):
        self.library = ctypes.CDLL(path)
        self.numbers = Numbers()
        self.call('clay_geometry', ctypes.byref(self.numbers))

    def call(self, name, *arguments):
        status = getattr(self.library, name)(*map(ctypes.c_uint32, (K, M, W)), *arguments)
        if status != DONE:
            sys.exit(f'{name}: status {status}')

    def parity(self, stripe):
        parity = room(ctypes.c_uint8, M * self.numbers.chunk_len)
        self.call('clay_parity', *given(stripe), *parity)
        return bytes(parity[0])

    def repair_layers(self, lost):
        layers = room(ctypes.c_uint32, self.numbers.layers // M)
        self.call('clay_repair_layers', ctypes.c_uint32(lost), *layers)
        return list(layers[0])

    def rebuild(self, lost, parts):
        chunk = room(ctypes.c_uint8, self.numbers.chunk_len)
        self.call('clay_rebuild', ctypes.c_uint32(lost), *given(parts), *chunk)
        return bytes(chunk[0])

    def recover(self, present, chunks):
        buffer = given(chunks)
        self.call('clay_recover', *given(present), *buffer)
        return bytes(buffer[0])


def main():
    clay = Clay(sys.argv[1])
    size = clay.numbers.chunk_len
    stripe = sys.stdin.buffer.read(clay.numbers.stripe_len)
    chunks = stripe + clay.parity(stripe)
    chunk = [chunks[c * size:][:size] for c in range(clay.numbers.chunks)]
    for lost in range(clay.numbers.chunks):
        layers = clay.repair_layers(lost)
        parts = b''.join(chunk[c][z * W:][:W] for c in range(clay.numbers.chunks) if c != lost for z in layers)
        assert clay.rebuild(lost, parts) == chunk[lost]
    left = bytes(size) + chunk[1] + bytes(size) + b''.join(chunk[3:])
    assert clay.recover(bytes([0, 1, 0, 1, 1, 1]), left) == chunks
    for line in chunk:
        print(line.hex())


main()
