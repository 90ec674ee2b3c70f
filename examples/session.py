#!/usr/bin/env python3
"""A client of `clay_session`: a store at the end of two pipes, whose objects last as long as the session.

    session.py [COMMAND [WORD..]]

walks through a session, a line for each step. Where no command is given it is the repository's ./clay_session; the words of the
session, K M W MAX, are put behind it. docs/SESSION.md has the frames.
"""
import contextlib
import io
import subprocess
import sys
from collections import namedtuple
from pathlib import Path

PROGRAM = str(Path(__file__).resolve().parent.parent / 'clay_session')
MOST_FRAME = 1_048_700
ENDINGS = {
    1: 'the words ask for no session', 3: 'the requests have more than 167,772,160 bytes', 4: 'a read failed', 5: 'a write failed',
    6: 'an allocation failed outside a request', 10: 'a length was none that a frame may have', 11: 'the input ended inside a frame',
    125: 'the program could not be built',
}

# A server without its chunk, and how often it had lost all its chunks: when that one was placed, and by now.
Missing = namedtuple('Missing', 'server placed found')
LostChunk = namedtuple('LostChunk', 'name stripe server')
# How many chunks are lost, and the first of them, as many as a frame lists.
Scrubbed = namedtuple('Scrubbed', 'count chunks')
# How many chunks were made anew, and how many subchunks that took of each server.
Healed = namedtuple('Healed', 'rebuilt taken')


class SessionError(Exception): """how a request ends in place of its value; the session goes on, except after Ended"""
class NoSuch(SessionError): """there is no such object, or no such stripe of it"""
class OutOfRange(SessionError): """the offset is past the object's end"""
class TooLarge(SessionError): """the object would have more bytes than it may"""
class BadRequest(SessionError): """the frame is no request"""
class NoMemory(SessionError): """an allocation failed"""
class Here(SessionError): """the server has its chunk"""
class NoSnapshot(SessionError): """no snapshot is open"""
class SnapshotOpen(SessionError): """a snapshot is open already"""
class NoProgram(SessionError): """the program could not be started"""


class Unavailable(SessionError):
    def __init__(self, stripe, servers):
        super().__init__(f'stripe {stripe} lacks its chunks at servers ' + ', '.join(str(each.server) for each in servers))
        self.stripe, self.servers = stripe, servers


class TooMany(SessionError):
    def __init__(self, objects):
        super().__init__(f'{objects} objects are too many for a snapshot')
        self.objects = objects


class Ended(SessionError):
    def __init__(self, status):
        super().__init__(f'the session ended with status {status}: ' + ENDINGS.get(status, 'this is no ending of a session'))
        self.status = status


CAUSES = {3: NoSuch, 4: OutOfRange, 5: TooLarge, 8: BadRequest, 9: NoMemory, 11: Here, 12: NoSnapshot, 13: SnapshotOpen}


def number(fields, count=4):
    return int.from_bytes(fields.read(count), 'big')


def field(value):
    """A name, a number or data as a field of a request."""
    if isinstance(value, str):
        return bytes([len(value.encode())]) + value.encode()
    return value.to_bytes(4, 'big') if isinstance(value, int) else bytes(value)


def data_of(value):
    """What an object's bytes are to be. A str or a number is none: it would be taken for another field of the request."""
    if not isinstance(value, (bytes, bytearray, memoryview)):
        raise TypeError(f'an object has bytes, and this is {type(value).__name__}: {value!r:.40}')
    return bytes(value)


def cause_of(kind, fields):
    """The exception for a reply of this kind."""
    if kind == 6:
        stripe, count = number(fields), number(fields, 1)
        return Unavailable(stripe, [Missing(number(fields), number(fields, 8), number(fields, 8)) for _ in range(count)])
    if kind == 14:
        return TooMany(number(fields, 8))
    cause = CAUSES.get(kind, SessionError)
    return cause(cause.__doc__)


class Session:
    """A store of a code of k + m chunks with subchunks of w bytes; an object may have `most` bytes."""

    def __init__(self, k, m, w, most, command=(PROGRAM,)):
        self.servers = k + m
        words = [*command, *map(str, (k, m, w, most))]
        try:
            self._program = subprocess.Popen(words, stdin=subprocess.PIPE, stdout=subprocess.PIPE)
        except OSError as fault:
            raise NoProgram(f'{words[0]}: {fault.strerror}') from None

    def __enter__(self):
        return self

    def __exit__(self, cause, *_):
        self.close(is_heard=cause is None)

    def close(self, is_heard=True):
        """Ends the session, whose objects are gone then, and tells of an ending that isn't well where that is heard."""
        with contextlib.suppress(BrokenPipeError):
            self._program.stdin.close()
        self._program.stdout.close()
        if self._program.wait() and is_heard:
            raise Ended(self._program.returncode)

    def _read(self, count):
        data = self._program.stdout.read(count)
        if len(data) < count:
            raise Ended(self._program.wait())
        return data

    def _ask(self, kind, wanted, *values):
        """The fields of a request's reply, where that is of the kind that is wanted."""
        request = bytes([kind]) + b''.join(map(field, values))
        if len(request) > MOST_FRAME:
            raise TooLarge(f'a frame has at most {MOST_FRAME:,} bytes')
        try:
            self._program.stdin.write(field(len(request)) + request)
            self._program.stdin.flush()
        except BrokenPipeError:
            raise Ended(self._program.wait()) from None
        reply = io.BytesIO(self._read(int.from_bytes(self._read(4), 'big')))
        kind = number(reply, 1)
        if kind != wanted:
            raise cause_of(kind, reply)
        return reply

    def put(self, name, data):
        self._ask(1, 0, name, data_of(data))

    def get(self, name):
        return self._ask(2, 1, name).read()

    def read(self, name, offset, length):
        return self._ask(3, 1, name, offset, length).read()

    def write(self, name, offset, data):
        self._ask(4, 0, name, offset, data_of(data))

    def stat(self, name):
        return number(self._ask(5, 2, name), 8)

    def delete(self, name):
        self._ask(6, 0, name)

    def lose(self, server):
        self._ask(7, 0, server)

    def rebuild(self, name, stripe, server):
        self._ask(8, 10, name, stripe, server)

    def snapshot(self):
        self._ask(9, 0)

    def read_snapshot(self, name, offset, length):
        return self._ask(10, 1, name, offset, length).read()

    def drop_snapshot(self):
        self._ask(11, 0)

    def scrub(self):
        reply = self._ask(12, 15)
        count = number(reply)
        listed = range(min(count, 14_000))
        return Scrubbed(count, [LostChunk(reply.read(number(reply, 1)).decode(), number(reply), number(reply)) for _ in listed])

    def heal(self):
        reply = self._ask(13, 16)
        return Healed(number(reply, 8), [number(reply, 8) for _ in range(self.servers)])


def main():
    letter = bytes(range(200)) * 6
    with Session(4, 2, 16, 65_536, sys.argv[1:] or [PROGRAM]) as session:
        session.put('letter', letter)
        print(f"put: 'letter' has {session.stat('letter')} bytes, in stripes of 512 bytes over {session.servers} servers")
        session.lose(1)
        print(f"lose, read: server 1 has lost its chunks, and bytes 197 to 202 are still {list(session.read('letter', 197, 6))}")
        chunks = ', '.join(f'{chunk.name} {chunk.stripe} at {chunk.server}' for chunk in session.scrub().chunks)
        print(f'scrub: the lost chunks, by object, stripe and server: {chunks}')
        healed = session.heal()
        print(f'heal: {healed.rebuilt} were made anew; of the 24 subchunks of each server that took {healed.taken}')
        session.snapshot()
        session.write('letter', 0, b'changed')
        print(f"snapshot, write: it begins with {session.read('letter', 0, 7)} now, in the snapshot with {session.read_snapshot('letter', 0, 7)}")
        try:
            for server in (0, 2, 4):
                session.lose(server)
            session.get('letter')
        except Unavailable as cause:
            print(f'lose, get: three of six chunks are one too many: {cause}')
    print('end: the session ended well, and its objects are gone')


if __name__ == '__main__':
    try:
        main()
    except SessionError as cause:
        sys.exit(f'session.py: {cause}')
