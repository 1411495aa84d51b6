"""The inputs of the comparison: named sets of cards, made anew and alike at each run."""
import os
import random

KBPS = {1: (32, 40, 48, 56, 64, 80, 96, 112, 128, 160, 192, 224, 256, 320), 2: (8, 16, 24, 32, 40, 48, 56, 64, 80, 96, 112, 128, 144, 160)}
RATES = {1: (44100, 48000, 32000), 2: (22050, 24000, 16000), 25: (11025, 12000, 8000)}
VERSION = {1: 3, 2: 2, 25: 0}
F = bytes.fromhex('FFF314C0 000040074800080001 7A') + bytes(10)

# The smallest inputs of docs/DIFFERENCES.md: the number of the entry, the bytes, and how many zeros follow.
SMALLEST = (
    (1, 'FFFB14C0 000200540000A000000007800014000000 FFFFFF', 72),
    (2, 'FFF31400 00001C03A4000400008018074800080001 7AC0', 1),
    (3, 'FFF314C0 000010074800080001 7A', 10),
    (3, 'FFF314C0 0000100B4800080001 7A', 10),
    (4, 'FFE318C0 0007EBEB4801810801' + 31 * 'FF' + '90', 27),
    (5, 'FFF314C0 000040074800080001', 0),
    (6, 'FFF314C0 0000C00F4800080001', 11),
    (7, 'FFF314C0 010040074800080001', 0),
    (8, 'FFF314C0 0002C8074800080001 7A', 10),
    (8, 'FFF314C0 000020074820080001 7A', 10),
    (8, 'FFF314C0 0002C0034800080001 F0', 10),
    (8, 'FFF31400 00006003A58F0400008000034B1E080001 7A', 2),
    (9, 'FFFB14C0 0002000404000080', 84),
    (12, 'FFF314C0 000040074801A10001 7A', 10),
    (13, 'FFF314C0 010040074800080001 7A', 10),
    (14, 'FFF314C0 000040074800080 1F9 7A', 10),
    (15, 'FFF314C0 000000074800080001 7A', 10),
    (16, 'FFF214C0 0000 000040074800080001 7A', 8),
)


def smallest():
    return [bytes.fromhex(text.replace(' ', '')) + bytes(zeros) for _, text, zeros in SMALLEST]


def side_size(b):
    mono, one = b[3] >> 6 == 3, b[1] >> 3 & 3 == 3
    return (17 if mono else 32) if one else (9 if mono else 17)


def by_table():
    table = []
    for n in range(256):
        v = n << 8
        for _ in range(8):
            v = v << 1 ^ (0x18005 if v & 0x8000 else 0)
        table.append(v)
    return table


TABLE = by_table()


def crc(b):
    """The CRC that fits a frame's bytes."""
    v = 0xFFFF
    for x in b[2:4] + b[6:6 + side_size(b)]:
        v = (v << 8 & 0xFF00) ^ TABLE[v >> 8 ^ x]
    return v


def checked(b):
    """A frame's bytes with the CRC that fits, where it has one."""
    if frame_length(b) is None or b[1] % 2:
        return b
    return b[:4] + crc(b).to_bytes(2, 'big') + b[6:]


def read(path):
    with open(path, 'rb') as f:
        return f.read()


def frame_length(b):
    """The length of the frame whose header these bytes begin with, or None."""
    if len(b) < 4 or b[0] != 255 or b[1] & 0xE6 != 0xE2 or b[1] & 0x18 == 8 or b[2] >> 4 in (0, 15) or b[2] & 12 == 12:
        return None
    version = {3: 1, 2: 2, 0: 25}[b[1] >> 3 & 3]
    bits = KBPS[min(version, 2)][(b[2] >> 4) - 1] * 1000
    return (144 if version == 1 else 72) * bits // RATES[version][b[2] >> 2 & 3] + (b[2] >> 1 & 1)


def frames(card):
    """The frames at the start of a stream."""
    out, at = [], 0
    while at < len(card):
        n = frame_length(card[at:at + 4])
        if n is None or at + n > len(card):
            break
        out.append(card[at:at + n])
        at += n
    return out


def streams(*folders):
    return {n: read(os.path.join(folder, n)) for folder in folders for n in sorted(os.listdir(folder)) if n.endswith('.mp3')}


class Bits:
    def __init__(self):
        self.value, self.count = 0, 0

    def put(self, *fields):
        for value, width in fields:
            assert 0 <= value < 1 << width
            self.value, self.count = self.value << width | value, self.count + width

    def bytes(self):
        pad = -self.count % 8
        return (self.value << pad).to_bytes((self.count + pad) // 8, 'big')


def frame(rng, version=1, rate=0, kbps=13, mode=3, extension=0, crc=False, begin=0, shares=0, main=None, **fields):
    """A frame whose slots all have the given fields; what is not given is drawn. `second` holds fields of the second channel alone."""
    b = Bits()
    b.put((0x7FF, 11), (VERSION[version], 2), (1, 2), (0 if crc else 1, 1), (kbps, 4), (rate, 2), (0, 2), (mode, 2), (extension, 2), (0, 4))
    if crc:
        b.put((0, 16))
    mono, one = mode == 3, version == 1
    b.put((begin, 9 if one else 8), (0, (5 if mono else 3) if one else (1 if mono else 2)))
    channels = 1 if mono else 2
    if one:
        b.put(*[(shares, 4)] * channels)
    for n in range(channels * (2 if one else 1)):
        r = dict(length=rng.randrange(900), pairs=rng.randrange(60), gain=210, compress=0, switched=0, block=2, mixed=0, gains=(0, 3, 7),
                 tables=tuple(rng.randrange(32) for _ in range(3)), region0=rng.randrange(8), region1=rng.randrange(8),
                 preflag=0, scale=0, count1=rng.randrange(2))
        r.update(fields)
        if n % channels == 1:
            r.update(fields.get('second', {}))
        b.put((r['length'], 12), (r['pairs'], 9), (r['gain'], 8), (r['compress'], 4 if one else 9), (r['switched'], 1))
        if r['switched']:
            b.put((r['block'], 2), (r['mixed'], 1), *[(t, 5) for t in r['tables'][:2]], *[(g, 3) for g in r['gains']])
        else:
            b.put(*[(t, 5) for t in r['tables']], (r['region0'], 4), (r['region1'], 3))
        if one:
            b.put((r['preflag'], 1))
        b.put((r['scale'], 1), (r['count1'], 1))
    head = b.bytes()
    size = frame_length(head) - len(head)
    body = rng.randbytes(size) if main is None else (main + bytes(size))[:size]
    return checked(head + body)


def headers():
    """Every second and third byte with several fourth bytes; every fourth byte with some second and third ones. A frame that is accepted is there in full,
    with a CRC that fits."""
    out = []
    some = (0x00, 0x44, 0x51, 0x6B, 0x80, 0xC0, 0xC2, 0xF7)
    for b2 in range(256):
        for b3 in range(256):
            for b4 in range(256) if b2 in (0xF3, 0xFA, 0xE2) and b3 in (0x14, 0x92, 0xE8) else some:
                head = bytes((255, b2, b3, b4))
                out.append(checked(head + bytes(frame_length(head) - 4 if frame_length(head) else 2)))
    out += [bytes((b1, 0xF3, 0x14, 0xC0)) + F[4:] for b1 in range(256)]
    return out


def chosen(all_streams):
    """F, and frames with a short block, under intensity stereo, with a CRC, and of MPEG-1 in stereo and in mono, each with the two frames before it,
    which it may reach back to. Those of streams that are not there are left out."""
    def pick(name, fits):
        fs = frames(all_streams.get(name, b''))
        return next(((b''.join(fs[k - 2:k]), fs[k]) for k in range(2, len(fs)) if fits(fs[k])), None)
    joint = lambda f: f[3] >> 6 == 1 and f[3] >> 4 & 1
    picked = {
        'F': (b'', F),
        'mixed': pick('mixed-24000.mp3', lambda f: f[10] >> 4 == 13),
        'short': pick('m25-12000-mono-8.mp3', lambda f: f[9] & 1 and f[10] >> 6 == 2),
        'allshort': pick('m2-24000-allshort.mp3', lambda f: True),
        'intensity': pick('gen-25-8000-008.mp3', joint),
        'crc': pick('m2-22050-vbr4-crc.mp3', lambda f: not f[1] & 1),
        'stereo': pick('m1-44100-allshort.mp3', lambda f: True),
        'mono': pick('m1-44100-mono-32.mp3', lambda f: True),
    }
    return {name: f for name, f in picked.items() if f}


def flips(before, f):
    out = []
    for i in range(8 * len(f)):
        g = bytearray(f)
        g[i // 8] ^= 128 >> i % 8
        out.append(before + bytes(g))
    return out


def cuts(before, f):
    return [before + f[:n] for n in range(len(f))]


def fields():
    """All values of scalefac_compress, big_values, the regions and the tables, at each version and kind of block."""
    rng, out = random.Random(1), []
    blocks = [dict(switched=0)] + [dict(switched=1, block=b, mixed=m) for b in (1, 2, 3) for m in (0, 1)]
    for version in RATES:
        for block in blocks:
            for compress in range(16 if version == 1 else 512):
                out.append(frame(rng, version, mode=3, compress=compress, **block))
                out.append(frame(rng, version, mode=1, extension=1, compress=compress, **block))
                if version == 1:
                    out += [frame(rng, 1, mode=m, shares=s, compress=compress, length=l, **block) for m in (0, 3) for s in range(16) for l in (0, 74, 300)]
                    out += [frame(rng, 1, mode=0, shares=15, compress=compress, second=second) for second in blocks]
            for pairs in range(512):
                out.append(frame(rng, version, mode=3, pairs=pairs, length=2000, **block))
                out.append(frame(rng, version, rate=2, mode=2, pairs=pairs, **block))
        for rate in range(3):
            for n in range(128):
                out += [frame(rng, version, rate, region0=n // 8, region1=n % 8, length=l, pairs=p) for l, p in ((0, 40), (1900, 0), (1900, 280))]
    for version in RATES:
        for table in range(32):
            for i in range(3):
                for block in blocks:
                    tables = tuple(table if j == i else rng.randrange(32) for j in range(3))
                    for n in range(6):
                        length, pairs = rng.randrange(2000), rng.randrange(289)
                        out.append(frame(rng, version, rng.randrange(3), tables=tables, count1=n % 2, length=length, pairs=pairs, **block))
            out += [frame(rng, version, tables=(table,) * 3, length=n, pairs=2) for n in range(60)]
    out += [frame(rng, version, rate, switched=1, block=b, mixed=1) for version in RATES for rate in range(3) for b in range(4)]
    out += [frame(rng, 25, 2, mode=2, switched=1, block=1, mixed=1, second=dict(block=b, pairs=p)) for b in range(4) for p in (7, 289)]
    return out


def damaged_one(rng, card):
    """One to three kinds of damage."""
    c = bytearray(card)
    for _ in range(rng.randrange(1, 4)):
        if not c:
            break
        at, kind = rng.randrange(len(c)), rng.randrange(7)
        if kind <= 1:
            c[at] ^= 1 << rng.randrange(8)
        elif kind == 2:
            c[at] = rng.randrange(256)
        elif kind == 3:
            del c[at:at + rng.randrange(1, 40)]
        elif kind == 4:
            c[at:at] = rng.randbytes(rng.randrange(1, 40))
        elif kind == 5:
            n = rng.randrange(1, 60)
            c[at:at + n] = rng.randbytes(len(c[at:at + n]))
        else:
            del c[at:]
    return bytes(c)


def damaged_head(rng, card):
    """Damage near the start of a frame, where the header and the side information are."""
    fs = frames(card)
    if not fs:
        return damaged_one(rng, card)
    k = rng.randrange(len(fs))
    start = sum(len(f) for f in fs[:k])
    c = bytearray(card)
    for _ in range(rng.randrange(1, 4)):
        c[start + min(rng.randrange(38), len(fs[k]) - 1)] ^= 1 << rng.randrange(8)
    return bytes(c)


def damaged(all_streams, seed, count):
    """Damaged copies of streams, of two to six frames each from any frame on."""
    rng = random.Random(seed)
    cut = [fs for fs in map(frames, all_streams.values()) if fs]
    out = []
    while len(out) < count:
        fs = rng.choice(cut)
        k = rng.randrange(len(fs))
        card = b''.join(fs[k:k + rng.randrange(2, 7)])
        out.append(rng.choice((damaged_one, damaged_head))(rng, card))
    return out


def all_inputs(folders):
    """Name, whether the programs go on after a refusal, and the cards."""
    s = streams(*folders)
    yield 'smallest', False, smallest()
    for name, card in s.items():
        yield name, True, [card]
    yield 'headers', False, headers()
    for name, (before, f) in chosen(s).items():
        yield 'flips of ' + name, True, flips(before, f)
        yield 'cuts of ' + name, True, cuts(before, f)
    yield 'fields', False, fields()
    for seed in range(24 if any(map(frames, s.values())) else 0):
        yield 'damaged copies %d' % seed, True, damaged(s, seed, 1000)
    yield 'noise', True, [random.Random(n).randbytes(3000) for n in range(200)]
