"""What ours must print, from what the Rust printed. Each rule that changes something is one entry of docs/DIFFERENCES.md, named by its number; where
no rule fits, Unexplained is raised."""
import inputs

# The Rust's errors that are refusals of ours.
HEADER = {
    'Frame sync not found': 3, 'Invalid MPEG version': 4, 'Invalid MPEG layer': 5, 'Only MPEG Layer III is supported': 6,
    'Free bitrate is unsupported': 7, 'Invalid emphasis': 9, 'input ended': 2,
}
RATE = 'Invalid bitrate'  # said of two faults: of bitrate_index 15, which is 8, and of sampling_frequency 3, which is 15
SIDE = {'input ended': 2, 'big_values > 288': 10, 'Forbidden block type': 11}
MIXED = 'assertion failed: !mixed_block || info.block_type == BlockType::Short'
OVERFLOW = 'attempt to subtract with overflow'
ENDED = 'input ended'

SHORT = 2  # the block type
GROUPS = ((0, 6), (6, 11), (11, 16), (16, 21))
# MPEG-1's lengths of factors by scalefac_compress, and where the last short band starts by rate: 11172-3 and 13818-3, as docs/RULES.md has them.
LENGTHS = ((0, 0), (0, 1), (0, 2), (0, 3), (3, 0), (1, 1), (1, 2), (1, 3), (2, 1), (2, 2), (2, 3), (3, 1), (3, 2), (3, 3), (4, 2), (4, 3))
LAST_BAND = {44100: 136, 48000: 126, 32000: 180, 22050: 174, 24000: 180, 16000: 174, 11025: 174, 12000: 174, 8000: 166}


class Unexplained(Exception):
    pass


def need(fact, why):
    if not fact:
        raise Unexplained(why)


def numbers(line):
    return [int(x) for x in line.split()[1:]]


class Slot:
    """One slot as the Rust read it: alone (with the bits that it used) or in the whole. off: it stopped at regions that run off the end, and was read
    without the third one. promised: it has no bits for its numbers, and a pair with a codeword."""

    def __init__(self, first):
        self.off = first.startswith('off ')
        self.first = first[4:] if self.off else first
        self.promised = first.endswith(' promised')
        self.rows = {}

    def row(self, word):
        return numbers(self.rows[word])


class Frame:
    """The lines of one `frame` of the oracle's."""

    def __init__(self, lines):
        self.head, self.slots, self.alone, self.records = [], {}, {}, {}
        self.failure, now, self.flagged = None, None, 'flagged' in lines
        for line in lines:
            w = line.split(' ', 3)
            if line == 'flagged':
                continue
            if w[0] in ('slot', 'alone'):
                now = Slot(w[3])
                (self.slots if w[0] == 'slot' else self.alone)[int(w[1]), int(w[2])] = now
            elif w[0] == 'whole':
                self.failure = line.split(' ', 2)[1:]
            elif now is not None:
                now.rows[w[0]] = line
            else:
                self.head.append(line)
                if w[0] == 'record':
                    v = numbers(line)
                    self.records[v[0], v[1]] = v[2:]
        self.header, self.side = numbers(self.head[1]), numbers(self.head[2])
        self.place, self.length, self.reservoir = numbers(self.head[0])
        if not self.alone:
            for k, s in self.slots.items():
                self.alone[k] = Slot('used %d count %s' % (self.records[k][0], s.first))
                self.alone[k].rows = s.rows

    def shares(self, k):
        """The sharing bits in force for a slot: in MPEG-1's granule 1, unless the block is short."""
        g, c = k
        if self.header[0] == 1 and g == 1 and self.records[k][4] != SHORT:
            return self.side[1 + 4 * c:5 + 4 * c]
        return [0, 0, 0, 0]


def main_size(header, length):
    version, crc, mode = header[0], header[1], header[5]
    side = 9 if mode == 3 and version != 1 else 32 if mode != 3 and version == 1 else 17
    return length - (6 if crc else 4) - side


def shared(f, k, mine, told):
    """Entry 1: a group whose sharing bit is set has granule 0's factors."""
    long = mine.row('long')
    for (a, e), s in zip(GROUPS, f.shares(k)):
        if s:
            long[a:e] = told[0, k[1]]['long'][a:e]
    return long


def reordered(f, mine):
    """Entry 4: the last short band is reordered too."""
    before, after = mine.row('numbers'), mine.row('reordered')
    before += [0] * (576 - len(before))
    start = 3 * LAST_BAND[f.header[3]]
    width = (576 - start) // 3
    need(after[start:] == before[start:], 'the last short band is not as it was')
    after[start:] = [before[start + win * width + j] for j in range(width) for win in range(3)]
    return after


def refusal(f, k, start, told):
    """The number that a slot is refused by, or None: the order of docs/REFUSALS.md."""
    length, pairs = f.records[k][:2]
    mine = f.alone[k]
    words = mine.first.split(' ')
    if 8 * f.reservoir < start + length:
        return 20
    if words[0] == 'factors':
        return 21
    if any(f.shares(k)) and told[0, k[1]]['refused']:
        return 22
    if words[2] == 'panic':
        why = ' '.join(words[3:])
        need(why == OVERFLOW and pairs == 1 and int(words[1]) > length, 'stopped: ' + mine.first)
        return 24
    need(words[2] == 'count', 'a slot alone: ' + mine.first)
    used, count = int(words[1]), int(words[3])
    if mine.promised:
        need(used == length and count == 0, 'pairs without bits that were read')
        return 24
    if used > length and count < 2 * pairs:
        need(count == 2 * pairs - 4, 'a pair that runs over drops four numbers')
        return 24
    need(used >= length and (count >= 2 * pairs or (length == used and count == 0)), 'a slot read too little')
    return None


def slots(f):
    """What ours tells of each slot, in the order of the slots."""
    told, start = {}, 0
    for k in sorted(f.records):
        mine = f.alone[k]
        number = refusal(f, k, start, told)
        if number is None:
            told[k] = {'refused': None, 'long': shared(f, k, mine, told), 'count': int(mine.first.split(' ')[3])}
            if 'reordered' in mine.rows:
                told[k]['reordered'] = reordered(f, mine)
        else:
            told[k] = {'refused': number, 'long': [0] * 22}
        told[k]['start'] = start
        start += f.records[k][0]
    return told


def row(word, values):
    return ' '.join([word] + [str(v) for v in values])


def slot_lines(f, told):
    out = []
    for k in sorted(told):
        t, mine = told[k], f.alone[k]
        if t['refused'] is not None:
            out.append(row('missed', (*k, t['refused'])))
            continue
        out += [row('slot', (*k, t['count'])), row('long', t['long']), mine.rows['short'], mine.rows['numbers']]
        if 'reordered' in t:
            out.append(row('reordered', t['reordered']))
    return out


def zeroed(f, k):
    """Entry 1, as the Rust has it: granule 0's factors after granule 1 was copied over them."""
    long = f.alone[k].row('long')
    if k[0] == 0 and (1, k[1]) in f.records:
        lengths = LENGTHS[f.records[1, k[1]][3]]
        for i, ((a, e), s) in enumerate(zip(GROUPS, f.shares((1, k[1])))):
            if s and lengths[i // 2]:
                long[a:e] = [0] * (e - a)
    return long


def whole(f, told):
    """That the Rust's reading of the whole frame is what its reading of the slots alone and the entries say. The entries that show."""
    late, entries = False, set()
    bits = 8 * f.reservoir
    for k in sorted(told):
        mine, words = f.alone[k], f.alone[k].first.split(' ')
        length, start = f.records[k][0], told[k]['start']
        if late and told[k]['refused'] == 24:
            continue
        if told[k]['refused'] == 20 or words[0] == 'factors' or mine.off or words[2] == 'panic':
            need(f.failure, 'the Rust read a slot that is lacking or damaged')
            past = told[k]['refused'] == 20 or start + int(words[1]) > bits
            need(late or past or f.failure[0] == 'panic', 'the Rust fails in another way')
            if not mine.off:  # entries_of has those
                entries.add(3 if told[k]['refused'] == 24 else 8)
            return entries | ({2} if late else set())
        if late:
            continue
        if start + int(words[1]) > bits:
            need(f.failure == ['error', ENDED], 'the Rust read past the end')
            return entries | {8}
        if not f.failure:
            him = f.slots[k]
            need(him.first == words[3], 'the whole and the slot have different counts')
            need(him.row('long') == zeroed(f, k), 'the whole and the slot have different factors')
            need({w: l for w, l in him.rows.items() if w != 'long'} == {w: l for w, l in mine.rows.items() if w != 'long'}, 'the whole and the slot differ')
        late = int(words[1]) > length and k != max(told)
    need(not f.failure or late, 'the Rust fails in the whole')
    return entries | ({2} if late else set())


def entries_of(f, told):
    """The entries by which the Rust's slots and ours differ."""
    entries = whole(f, told)
    for k in sorted(told):
        t, mine = told[k], f.alone[k]
        if mine.off:
            entries.add(14)
        if t['refused'] == 24:
            entries.add(15 if mine.promised else 3)
        elif t['refused'] == 22:
            entries.add(9)
        elif t['refused'] is not None:
            entries.add(8)
        else:
            if t['long'] != mine.row('long') or zeroed(f, k) != mine.row('long'):
                entries.add(1)
            if 'reordered' in t and t['reordered'] != mine.row('reordered'):
                entries.add(4)
    return entries


def failed(lines, left, before, third):
    """A try that the Rust fails in before the slots; entry 12: where a record has mixed_block_flag it does so in any case."""
    if lines[-1] == 'flagged':
        ours, entries = failed(lines[:-1], left, before, third)
        return ours, tuple(sorted({*entries, 12}))
    return failed_by(lines, left, before, third)


def failed_by(lines, left, before, third):
    """The bytes of a frame are needed from the first on, so the first absent one stands where the card ends."""
    _, place, stage, kind, text = lines[0].split(' ', 4)
    refused = lambda number: [row('refused', (place, number) + ((left,) if number == 2 else ()))]
    if kind == 'error' and stage == 'header' and text == RATE:
        need(third // 16 == 15 or third // 4 % 4 == 3, 'a rate that the Rust refuses: third byte %d' % third)
        return refused(8 if third // 16 == 15 else 15), ()
    if kind == 'error' and stage == 'header' and text in HEADER:
        return refused(HEADER[text]), ()
    if kind == 'error' and stage == 'side' and text in SIDE:
        return refused(SIDE[text]), ()
    if kind == 'panic' and stage == 'side' and text == MIXED:
        return refused(12), (12,)
    need(stage == 'main', 'a failure that no entry names: ' + lines[0])
    length, after = numbers(lines[1])
    if (kind, text) == ('error', ENDED):
        need(left < length, 'the Rust misses bytes that are there')
        return refused(2), () if after == before else (5,)
    need((kind, text) == ('panic', OVERFLOW) and after == before, 'a failure that no entry names: ' + lines[0])
    need(numbers(lines[3])[0] > before, 'main_data_begin is within the reservoir')
    if left < length:
        return refused(2), (7,)
    reach = row('reach', (place, length, before + main_size(numbers(lines[2]), length)))
    return [reach] + lines[2:], (13,)


def unfit(lines, card, place):
    """Entry 16: the CRC is told wrong by the oracle's division; here by a table of bytes, so that no one of the two is taken at its word."""
    need(card[place + 1] % 2 == 0 and not lines[0].startswith('failed %d header' % place), 'there is no CRC')
    need(inputs.crc(card[place:]) != int.from_bytes(card[place + 4:place + 6], 'big'), 'the CRC fits')
    return [row('refused', (place, 16))]


def expected(lines, mended, card, place, before):
    """Our lines, and the entries by which the Rust's differ from them. lines: the oracle's of one try; mended: those after `mended`, or None; card, place:
    the card's bytes and where in them the try is; before: the reservoir's length before it."""
    left = len(card) - place
    if lines[-1] == 'unfit':
        return unfit(lines, card, place), (16,)
    if lines[0].startswith('failed'):
        return failed(lines, left, before, card[place + 2] if left > 2 else 0)
    f = Frame(mended or lines)
    need(not f.header[1] or inputs.crc(card[place:]) == int.from_bytes(card[place + 4:place + 6], 'big'), 'the CRC does not fit')
    if not mended and f.failure is None and not any(f.side[1:]) and not any(l.startswith(('alone', 'reordered')) for l in lines):
        need(f.length <= left, 'the Rust reads bytes that are not there')
        return lines, ()
    told = slots(f)
    ours = f.head + slot_lines(f, told)
    if f.flagged:
        return ours, (12,)
    entries = entries_of(f, told)
    published = lines[:next((i for i, l in enumerate(lines) if l.startswith('alone')), len(lines))]
    if published == ours:
        return ours, ()
    if mended:
        entries.add(6)
    need(entries, 'different, and no entry says why')
    return ours, tuple(sorted(entries))
