#!/usr/bin/env python3
"""Reads a stripe of 8 data chunks, 8 MiB, gives it 4 parity chunks, loses chunk CHUNK, and reads 4 KiB of it, OFFSET bytes from its start,
from pieces of the others. Compares them with the bytes that were lost, and prints what was read. Then it does so while the chunks MISSING
are missing too, and compares the bytes with those of the chunk that is recovered whole.

    lost_piece.py LIBRARY CHUNK OFFSET MISSING.. < STRIPE

LIBRARY is the shared library that library/Makefile makes, as /usr/local/lib/libclay.so. OFFSET is a multiple of 4096. MISSING are at most 3.
"""
import ctypes
import sys

K, M, W = 8, 4, 16384
SIZE = 4096
DONE = 0


class Numbers(ctypes.Structure):
    """`struct clay_numbers` of include/clay.h."""
    _fields_ = [(name, ctypes.c_uint32) for name in
                ('chunks', 'rows', 'columns', 'virtual_nodes', 'layers', 'chunk_len', 'stripe_len', 'part_len')]


class Piece(ctypes.Structure):
    """`struct clay_piece`."""
    _fields_ = [(name, ctypes.c_uint32) for name in ('chunk', 'layer')]


class Bytes(ctypes.Structure):
    """`struct clay_bytes`."""
    _fields_ = [('bytes', ctypes.c_void_p), ('len', ctypes.c_size_t)]


def given(data):
    """A pointer and a length of bytes that a call reads."""
    return (ctypes.c_uint8 * len(data)).from_buffer_copy(data), ctypes.c_size_t(len(data))


def room(element, count):
    """A pointer and a length of what a call writes."""
    return (element * count)(), ctypes.c_size_t(count)


class Clay:
    """The calls of the library, for one code."""

    def __init__(self, path):
        self.library = ctypes.CDLL(path)
        self.numbers = Numbers()
        self.call('clay_geometry', W, ctypes.byref(self.numbers))

    def call(self, name, width, *arguments):
        status = getattr(self.library, name)(*map(ctypes.c_uint32, (K, M, width)), *arguments)
        if status != DONE:
            sys.exit(f'{name}: status {status}')

    def parity(self, stripe):
        parity = room(ctypes.c_uint8, M * self.numbers.chunk_len)
        self.call('clay_parity', W, *given(stripe), *parity)
        return bytes(parity[0])

    def recovered(self, chunks, present):
        """All chunks, one behind another, of which those with a 0 were missing."""
        chunks, size = given(chunks)
        self.call('clay_recover', W, *given(present), chunks, size)
        return bytes(chunks)

    def pieces(self, lost, layer, present=None):
        """The subchunks that one layer of a lost chunk takes; with marks, where those with a 0 are missing."""
        calls = ('clay_lost_count', 'clay_lost_pieces') if present is None else ('clay_missing_count', 'clay_missing_pieces')
        run = run_of(lost, layer) + ([] if present is None else [*given(present)])
        count = ctypes.c_uint32()
        self.call(calls[0], W, *run, ctypes.byref(count))
        pieces = room(Piece, count.value)
        self.call(calls[1], W, *run, *pieces)
        return list(pieces[0])

    def read_lost(self, lost, layer, read):
        """SIZE bytes of one layer, from the same bytes of its pieces: those are the code's with subchunks of SIZE bytes."""
        out = room(ctypes.c_uint8, SIZE)
        self.call('clay_read_lost', SIZE, *run_of(lost, layer), *given(b''.join(read)), *out)
        return bytes(out[0])

    def read_missing(self, lost, layer, present, read):
        """The same, where the pieces stand apart."""
        held = [given(piece)[0] for piece in read]
        pieces = (Bytes * len(held))(*[Bytes(ctypes.addressof(piece), SIZE) for piece in held])
        out = room(ctypes.c_uint8, SIZE)
        self.call('clay_read_missing', SIZE, *run_of(lost, layer), *given(present), pieces, ctypes.c_size_t(len(held)), *out)
        return bytes(out[0])


def run_of(lost, layer):
    """One layer of a lost chunk, as the calls take it."""
    return [ctypes.c_uint32(number) for number in (lost, layer, layer + 1)]


def main():
    path, lost, offset, *missing = sys.argv[1], *map(int, sys.argv[2:])
    clay = Clay(path)
    size, count = clay.numbers.chunk_len, clay.numbers.chunks
    stripe = sys.stdin.buffer.read(clay.numbers.stripe_len)
    chunks = stripe + clay.parity(stripe)
    layer, at = divmod(offset, W)

    def read(pieces):
        print(f'{SIZE} bytes of chunk {lost} from {len(pieces)} pieces of {len({piece.chunk for piece in pieces})} chunks')
        starts = [piece.chunk * size + piece.layer * W + at for piece in pieces]
        return [chunks[start:start + SIZE] for start in starts]

    start = lost * size + offset
    pieces = clay.pieces(lost, layer)
    assert all(piece.chunk != lost for piece in pieces)
    assert clay.read_lost(lost, layer, read(pieces)) == chunks[start:start + SIZE]
    if not missing:
        return
    present = bytes(c != lost and c not in missing for c in range(count))
    left = b''.join(chunks[c * size:(c + 1) * size] if present[c] else bytes(size) for c in range(count))
    pieces = clay.pieces(lost, layer, present)
    assert all(present[piece.chunk] for piece in pieces)
    assert clay.read_missing(lost, layer, present, read(pieces)) == clay.recovered(left, present)[start:start + SIZE]


main()
