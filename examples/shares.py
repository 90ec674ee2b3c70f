#!/usr/bin/env python3
"""Share files, read and written without the proved programs, by docs/SHARES.md alone.

    shares.py check FOLDER
    shares.py join FOLDER FILE [LIBRARY]
    shares.py cut K M D W FILE FOLDER LIBRARY

`check` judges each share, `join` writes the file. Where all blocks of a stripe's data are good their bytes are the stripe; for the rest
LIBRARY is needed, as /usr/local/lib/libclay.so: the shared library that library/Makefile makes.
"""
import ctypes
import ctypes.util
import os
import struct
import sys
from collections import namedtuple
from pathlib import Path

MAGIC = b'\x89CLAY\r\n\x1a'
FIELDS = struct.Struct('<8sIIIIIIQQQ')
LONGEST = 1 << 56
PAGE = 4096


class Refused(Exception):
    """why a file is no share, or why shares give no file"""


def checksum_maker():
    """CRC-64/XZ of some bytes behind those of a checksum: liblzma's where it is there, else by a table."""
    name = ctypes.util.find_library('lzma')
    if name and hasattr(ctypes.CDLL(name), 'lzma_crc64'):
        crc64 = ctypes.CDLL(name).lzma_crc64
        crc64.restype = ctypes.c_uint64
        crc64.argtypes = [ctypes.c_char_p, ctypes.c_size_t, ctypes.c_uint64]
        return lambda data, before=0: crc64(data, len(data), before)
    table = []
    for byte in range(256):
        for _ in range(8):
            byte = byte >> 1 ^ (0xC96C5795D7870F42 if byte & 1 else 0)
        table.append(byte)

    def by_table(data, before=0):
        register = ~before & 0xFFFFFFFFFFFFFFFF
        for byte in data:
            register = table[(register ^ byte) & 255] ^ register >> 8
        return ~register & 0xFFFFFFFFFFFFFFFF
    return by_table


checksum = checksum_maker()


class Code(namedtuple('Code', 'k m d w')):
    """`k` data chunks, `m` parity chunks, `d` helpers, subchunks of `w` bytes."""

    @property
    def shares(self):
        return self.k + self.m

    @property
    def rows(self):
        return self.d + 1 - self.k

    @property
    def layers(self):
        return self.rows ** -(-self.shares // self.rows)

    @property
    def chunk(self):
        return self.layers * self.w

    @property
    def stripe(self):
        return self.k * self.chunk

    def fault(self):
        if self.k < 2 or not 2 <= self.m <= 8 or not self.k < self.d < self.shares or self.shares > 24:
            return True
        return self.layers > 1024 or not 1 <= self.w <= 65536 or self.chunk > 1 << 20

    def up(self, size):
        """A length rounded up to whole pages, where a subchunk is whole pages."""
        return -(-size // PAGE) * PAGE if self.w % PAGE == 0 else size

    def stripes(self, size):
        return -(-size // self.stripe)

    @property
    def block(self):
        return self.up(8 * self.layers) + self.chunk

    def place(self, stripe):
        return self.up(64) + stripe * self.block

    def table(self, chunk):
        table = b''.join(struct.pack('<Q', checksum(chunk[at:at + self.w])) for at in range(0, self.chunk, self.w))
        return table.ljust(self.up(8 * self.layers), b'\0')


Header = namedtuple('Header', 'code share size checksum')


def header_bytes(header):
    code = header.code
    told = FIELDS.pack(MAGIC, 1, code.k, code.m, code.d, code.w, header.share, header.size, code.stripes(header.size), header.checksum)
    return (told + struct.pack('<Q', checksum(told))).ljust(code.up(64), b'\0')


def read_header(data):
    """The header that a file begins with."""
    if len(data) < 64:
        raise Refused('it is shorter than a header')
    magic, version, k, m, d, w, share, size, stripes, whole = FIELDS.unpack(data[:56])
    code = Code(k, m, d, w)
    if magic != MAGIC:
        raise Refused('it is no share file')
    if version != 1:
        raise Refused(f'its version is {version}')
    if data[56:64] != struct.pack('<Q', checksum(data[:56])):
        raise Refused("its header's checksum is wrong")
    if code.fault():
        raise Refused('there is no such code')
    if size > LONGEST or stripes != code.stripes(size) or share >= code.shares:
        raise Refused('its header contradicts itself')
    return Header(code, share, size, whole)


class Share:
    def __init__(self, path):
        self.path, self.file, self.number = path, open(path, 'rb'), int(path.name[-7:-5])
        self.header = read_header(self.file.read(64))
        self.rotten = set()

    def chunk(self, stripe):
        """The chunk of a stripe, if its table has its checksums."""
        code = self.header.code
        self.file.seek(code.place(stripe))
        block = self.file.read(code.block)
        chunk = block[code.up(8 * code.layers):]
        if len(block) == code.block and block[:-code.chunk] == code.table(chunk):
            return chunk
        self.rotten.add(stripe)
        return None

    def is_of(self, cut):
        """Whether it has the header of its number, of the cut of a header."""
        return self.header == cut._replace(share=self.number)

    def faults(self):
        """What is wrong with the whole file."""
        header, code = self.header, self.header.code
        self.file.seek(0)
        if self.file.read(code.up(64)) != header_bytes(header):
            yield 'what stands behind its header is not zeros'
        for stripe in range(code.stripes(header.size)):
            if self.chunk(stripe) is None:
                yield f'its block {stripe} is rotten'
        if os.fstat(self.file.fileno()).st_size > code.place(code.stripes(header.size)):
            yield 'it is too long'


def shares_in(folder):
    """A header of the cut that most shares of a folder are of, these shares by their numbers, and of the others why they count as missing."""
    found, refused = [], []
    for path in sorted(Path(folder).glob('*.[0-9][0-9].clay')):
        try:
            found.append(Share(path))
        except (Refused, OSError) as error:
            refused.append(f'{path.name}: {error}')
    if not found:
        raise Refused('there is no share')
    if len({share.path.name[:-8] for share in found}) > 1:
        raise Refused(f'{found[0].path.name} and {found[-1].path.name} are of two files')
    # the first of those that most are of
    cut = max((share.header for share in found), key=lambda header: sum(share.is_of(header) for share in found))
    refused += [f'{share.path.name}: it is a share of another number, file or code' for share in found if not share.is_of(cut)]
    return cut, {share.number: share for share in found if share.is_of(cut)}, refused


class Library:
    """The calls of include/clay.h for one code."""

    def __init__(self, path, code):
        if path is None:
            raise Refused('a data share lacks blocks, and no library is given')
        self.calls, self.code = ctypes.CDLL(path), code

    def call(self, name, *buffers):
        code = self.code
        arguments = [each for buffer in buffers for each in (buffer, ctypes.c_size_t(len(buffer)))]
        status = getattr(self.calls, name)(code.k, code.m, code.d, code.w, *arguments)
        if status:
            raise Refused(f'{name} ended with {status}')

    def parity(self, stripe):
        room = ctypes.create_string_buffer(self.code.m * self.code.chunk)
        self.call('clay_parity_with_helpers', stripe, room)
        return room.raw

    def recovered(self, chunks):
        code = self.code
        present = bytes(chunk is not None for chunk in chunks)
        room = ctypes.create_string_buffer(b''.join(chunk or bytes(code.chunk) for chunk in chunks), code.shares * code.chunk)
        self.call('clay_recover_with_helpers', present, room)
        return room.raw[:code.stripe]


def join(folder, target, library=None):
    header, shares, refused = shares_in(folder)
    code, whole = header.code, 0
    made, calls = Path(f'{target}.part'), None
    try:
        with open(made, 'wb') as file:
            for stripe in range(code.stripes(header.size)):
                data = [shares[number].chunk(stripe) if number in shares else None for number in range(code.k)]
                if None in data:
                    data += [shares[number].chunk(stripe) if number in shares else None for number in range(code.k, code.shares)]
                    if sum(chunk is not None for chunk in data) < code.k:
                        raise Refused(f'fewer than {code.k} shares have their block {stripe}')
                    calls = calls or Library(library, code)
                    piece = calls.recovered(data)
                else:
                    piece = b''.join(data)
                piece = piece[:header.size - stripe * code.stripe]
                whole = checksum(piece, whole)
                file.write(piece)
        if whole != header.checksum:
            raise Refused("the file's checksum is not its shares'")
        os.replace(made, target)
    finally:
        made.unlink(missing_ok=True)
    return refused + [f'{share.path.name}: {len(share.rotten)} blocks are rotten' for share in shares.values() if share.rotten]


def cut(code, source, folder, library):
    calls, name = Library(library, code), Path(source).name
    size, whole = os.path.getsize(source), 0
    paths = [Path(folder) / f'{name}.{number:02}.clay' for number in range(code.shares)]
    shares = [open(path, 'wb') for path in paths]
    with open(source, 'rb') as file:
        for share in shares:
            share.write(bytes(code.up(64)))
        for _ in range(code.stripes(size)):
            piece = file.read(code.stripe)
            whole = checksum(piece, whole)
            piece = piece.ljust(code.stripe, b'\0')
            word = piece + calls.parity(piece)
            for number, share in enumerate(shares):
                chunk = word[number * code.chunk:(number + 1) * code.chunk]
                share.write(code.table(chunk) + chunk)
    for number, share in enumerate(shares):
        share.seek(0)
        share.write(header_bytes(Header(code, number, size, whole)))
        share.close()


def check(folder):
    header, shares, faults = shares_in(folder)
    faults += [f'{share.path.name}: {fault}' for share in shares.values() for fault in share.faults()]
    there = {int(path.name[-7:-5]) for path in Path(folder).glob('*.[0-9][0-9].clay')}
    return faults + [f'share {number} is missing' for number in range(header.code.shares) if number not in there]


def main(words):
    match words:
        case ['check', folder]:
            faults = check(folder)
        case ['join', folder, target, *library] if len(library) < 2:
            faults = join(folder, target, *library)
        case ['cut', k, m, d, w, source, folder, library]:
            code = Code(int(k), int(m), int(d), int(w))
            if code.fault():
                raise Refused('there is no such code')
            faults = cut(code, source, folder, library) or []
        case _:
            sys.exit(__doc__)
    for fault in faults:
        print(fault, file=sys.stderr)
    return 3 if faults and words[0] == 'check' else 0


if __name__ == '__main__':
    try:
        sys.exit(main(sys.argv[1:]))
    except (Refused, OSError) as error:
        sys.exit(f'shares.py: {error}')
