#!/usr/bin/env python3
"""check.py STDIN STDOUT: reads a recorded session again, without the program. It takes the tool's bytes apart by serprog, follows the
chip by the sentences of document 01 for the commands that flashrom uses, and compares each answer with what comes of that. Any other
opcode that 01 lists ends the check, so that nothing is passed over."""
import sys

sent = open(sys.argv[1], 'rb').read()
said = open(sys.argv[2], 'rb').read()
ARRAY = 0x200000
# opcodes that 01 lists and that this script does not follow
OTHER = {0x00, 0x66, 0x99, 0x38, 0xFF, 0x35, 0x72, 0xAF, 0x0B, 0x6B, 0x88, 0xA5, 0x85, 0x42, 0xE8, 0x8D, 0xB0, 0x30, 0x32, 0x01}


def block(place):
    """The write-lock bit, start and size of the protection block of a place: the table of 01."""
    for n in range(4):
        if 0x2000 * n <= place < 0x2000 * (n + 1):
            return 32 + 2 * n, 0x2000 * n, 0x2000
        if 0x1F8000 + 0x2000 * n <= place < 0x1FA000 + 0x2000 * n:
            return 40 + 2 * n, 0x1F8000 + 0x2000 * n, 0x2000
    if 0x8000 <= place < 0x10000:
        return 30, 0x8000, 0x8000
    if 0x1F0000 <= place < 0x1F8000:
        return 31, 0x1F0000, 0x8000
    return place // 0x10000 - 1, place // 0x10000 * 0x10000, 0x10000


class Chip:
    def __init__(self):
        self.array = bytearray(b'\xff' * ARRAY)
        self.wel = False
        self.run = None
        self.reads = 0
        self.locks = 0x5555FFFFFFFF
        self.done = {}
        self.refused = {}

    def complete(self):
        what, start, data = self.run
        if what == 'erase':
            self.array[start:start + data] = b'\xff' * data
        else:
            for i, b in enumerate(data):
                self.array[start + i] &= b
        self.run, self.wel = None, False

    def frame(self, f, n):
        if f and f[0] == 0x05 and self.run and self.reads == 1:
            self.complete()
        reply = self.act(f, n)
        tally = self.refused if reply is None else self.done
        if f:
            tally[f[0]] = tally.get(f[0], 0) + 1
        self.reads = 0 if not self.run else 1 if f and f[0] == 0x05 else self.reads
        return b'\xff' * n if reply is None else reply

    def act(self, f, n):
        """The reply of a done frame; None where it is refused."""
        if not f:
            return None
        o = f[0]
        if o in OTHER:
            sys.exit(f'opcode {o:02X} is not followed here')
        if o not in (0x05, 0x9F, 0x03, 0x06, 0x04, 0x98, 0x20, 0xD8, 0xC7, 0x02):
            return None
        right = len(f) >= 5 if o == 0x02 else len(f) == {0x03: 4, 0x20: 4, 0xD8: 4}.get(o, 1)
        if not right or (self.run and o != 0x05):
            return None
        place = int.from_bytes(f[1:4], 'big') % ARRAY if len(f) > 3 else 0
        if o == 0x05:
            return bytes([(0x81 if self.run else 0) | (2 if self.wel else 0)]) * n
        if o == 0x9F:
            return (b'\xbf\x26\x41' * (n // 3 + 1))[:n]
        if o == 0x03:
            return bytes(self.array[(place + i) % ARRAY] for i in range(n))
        if o in (0x06, 0x04):
            self.wel = o == 0x06
            return b'\xff' * n
        if not self.wel:
            return None
        if o == 0x98:
            self.locks &= 0xAAAA00000000
            self.wel = False
            return b'\xff' * n
        if o == 0xC7:
            if self.locks & 0x5555FFFFFFFF:
                return None
            self.run = ('erase', 0, ARRAY)
            return b'\xff' * n
        bit, start, size = block(place)
        if self.locks >> bit & 1:
            return None
        if o == 0x02:
            page = bytearray(b'\xff' * 256)
            for i, b in enumerate(f[4:]):
                page[(place + i) % 256] = b
            self.run = ('program', place // 256 * 256, page)
        else:
            self.run = ('erase', start, size) if o == 0xD8 else ('erase', place // 4096 * 4096, 4096)
        return b'\xff' * n


LISTED = [0, 1, 2, 3, 4, 5, 0x10, 0x12, 0x13, 0x14, 0x15]
MAP = bytes(sum(1 << j for j in range(8) if 8 * k + j in LISTED) for k in range(32))
chip, at, out, count = Chip(), 0, 0, 0
while at < len(sent):
    code, at = sent[at], at + 1
    if code == 0x13:
        length = int.from_bytes(sent[at:at + 3], 'little')
        n = int.from_bytes(sent[at + 3:at + 6], 'little')
        frame, at = sent[at + 6:at + 6 + length], at + 6 + length
        assert len(frame) == length, 'the session ends within an operation'
        right = b'\x06' + chip.frame(frame, n)
        what = f'operation {frame[:8].hex(" ")}, {n} bytes'
    else:
        p = {0x12: 1, 0x14: 4, 0x15: 1}.get(code, 0)
        given, at = sent[at:at + p], at + p
        right = {0: b'\x06', 1: b'\x06\x01\x00', 2: b'\x06' + MAP, 3: b'\x06Fulkibono' + bytes(7), 4: b'\x06\xff\xff', 5: b'\x06\x08',
                 0x10: b'\x15\x06', 0x12: b'\x06' if given[:1] and given[0] & 8 else b'\x15',
                 0x14: b'\x06' + given if any(given) else b'\x15', 0x15: b'\x06'}.get(code, b'\x15')
        what = f'command {code:02X}'
    count += 1
    if said[out:out + len(right)] != right:
        sys.exit(f'{what}, number {count}: answered {said[out:out + len(right)][:16].hex(" ")}.., right is {right[:16].hex(" ")}..')
    out += len(right)
if out != len(said):
    sys.exit(f'{len(said) - out} bytes were answered that nothing asked for')
names = lambda t: ', '.join(f'{o:02X} {t[o]} times' for o in sorted(t))
print(f'{count} commands, {out} bytes answered: each is what 01 says')
print('done:', names(chip.done))
print('refused:', names(chip.refused))
