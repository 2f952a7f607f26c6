#!/usr/bin/env python3
"""A second, independent reading of the 512-byte block (see docs/FORMAT.md).

    python3 vectors.py stream OUT    write a fixed stream of good and bad blocks
    python3 vectors.py expect FILE   print what daysheet prints for FILE
    python3 vectors.py rust          print three blocks for unit tests
    python3 vectors.py list          print the stream's cases with their answers
    python3 vectors.py selftest      test this script against itself

It has no code in common with the program under test, so that an error would
have to be made twice, in two languages, to go unseen. It is written to be read,
not to be fast.
"""

import random
import sys

# ---------------------------------------------------------------------------
# The places of a block. Fields of several bytes have the lowest byte first.
# ---------------------------------------------------------------------------

SIZE = 512
KIND_AT, N_AT, STATION_AT, CLASS_AT, NUMBER_AT = 0, 1, 2, 3, 4
AFTER_AT = 6            # sixteen counts of two bytes
ORDER_AT = 38           # eight order bytes
NOTE_LENGTH_AT = 46
NOTE_AT = 47
CHECK_AT = 508          # four bytes, up to the end of the block

KIND = 1
STATIONS = 16           # the most stations, and always the number of counts
CLASS_MAX = 3
NUMBER_MAX = 4096       # for a number and for a count
ORDER_SIZE = 8
NOTE_MAX = 64
CHARACTER_MIN, CHARACTER_MAX = 32, 126
NAME_SIZE = 12          # bytes a station has on a name sheet

# The numbers of the refusals.
LENGTH, CHECK, LAYOUT, SETTING = 1, 2, 3, 12


# ---------------------------------------------------------------------------
# Check, filling, reading, label
# ---------------------------------------------------------------------------

def check_of(block):
    """The sum of (place + 1) * byte over places 0 to 507.

    It cannot pass four bytes: 255 * (1 + 2 + ... + 508) is 32,967,930.
    """
    return sum((place + 1) * block[place] for place in range(CHECK_AT))


def stored_check(block):
    return int.from_bytes(block[CHECK_AT:SIZE], "little")


def seal(block):
    """The same block with the check that belongs to it."""
    return bytes(block[:CHECK_AT]) + check_of(block).to_bytes(4, "little")


def lay_out(n, station, number, after, klass, order, note):
    """The block with these fields and a correct check, lawful or not.

    Only what does not fit into its bytes is impossible here. The bad blocks of
    the stream are made with this.
    """
    block = bytearray(SIZE)
    block[KIND_AT] = KIND
    block[N_AT] = n
    block[STATION_AT] = station
    block[CLASS_AT] = klass
    block[NUMBER_AT:NUMBER_AT + 2] = number.to_bytes(2, "little")
    for index in range(STATIONS):
        place = AFTER_AT + 2 * index
        block[place:place + 2] = after[index].to_bytes(2, "little")
    block[ORDER_AT:ORDER_AT + ORDER_SIZE] = order
    block[NOTE_LENGTH_AT] = len(note)
    block[NOTE_AT:NOTE_AT + len(note)] = note
    # A slice of another length would move everything behind it.
    assert len(order) == ORDER_SIZE and len(block) == SIZE
    return seal(block)


def fields_are_lawful(n, station, number, after, klass, order, note):
    """Whether a block may be filled with these fields."""
    if not 1 <= n <= STATIONS:
        return False
    if not 1 <= station <= n:
        return False
    if not 1 <= number <= NUMBER_MAX:
        return False
    if not 0 <= klass <= CLASS_MAX:
        return False
    if len(after) != STATIONS or len(order) != ORDER_SIZE:
        return False
    for j in range(1, STATIONS + 1):
        count = after[j - 1]
        if not 0 <= count <= NUMBER_MAX:
            return False
        if j == station and count != number - 1:
            return False
        if j > n and count != 0:
            return False
    if len(note) > NOTE_MAX:
        return False
    return all(CHARACTER_MIN <= c <= CHARACTER_MAX for c in note)


def fill(n, station, number, after, klass, order, note):
    """The block of this message and note, or the refusal 3."""
    if not fields_are_lawful(n, station, number, after, klass, order, note):
        return LAYOUT
    return lay_out(n, station, number, after, klass, order, note)


def read(block):
    """The fields of a block as a dict, or the number of its refusal.

    Length comes first, then the check, then the layout. It reads place by
    place and does not use fields_are_lawful, so that the two can be compared.
    """
    if len(block) != SIZE:
        return LENGTH
    if stored_check(block) != check_of(block):
        return CHECK

    if block[KIND_AT] != KIND:
        return LAYOUT
    n = block[N_AT]
    if n < 1 or n > 16:
        return LAYOUT
    station = block[STATION_AT]
    if station < 1 or station > n:
        return LAYOUT
    klass = block[CLASS_AT]
    if klass > 3:
        return LAYOUT
    number = block[4] + 256 * block[5]
    if number < 1 or number > 4096:
        return LAYOUT

    after = tuple(block[6 + 2 * i] + 256 * block[7 + 2 * i] for i in range(16))
    if any(count > 4096 for count in after):
        return LAYOUT
    if after[station - 1] != number - 1:
        return LAYOUT
    if any(count != 0 for count in after[n:]):
        return LAYOUT

    order = bytes(block[38:46])         # a block asks nothing of these

    note_length = block[46]
    if note_length > 64:
        return LAYOUT
    note = bytes(block[47:47 + note_length])
    if any(c < 32 or c > 126 for c in note):
        return LAYOUT
    if any(spare != 0 for spare in block[47 + note_length:508]):
        return LAYOUT

    return dict(n=n, station=station, number=number, after=after,
                klass=klass, order=order, note=note)


def label(block, sheet):
    """The note, or the station's name on the sheet where the note is empty.

    Refuses as reading does; then 12 for a sheet of the wrong length, also where
    the note is there and the sheet would not be needed. A name is all of its
    twelve bytes.
    """
    got = read(block)
    if isinstance(got, int):
        return got
    if len(sheet) != NAME_SIZE * got["n"]:
        return SETTING
    if got["note"]:
        return got["note"]
    start = NAME_SIZE * (got["station"] - 1)
    return bytes(sheet[start:start + NAME_SIZE])


def answer_of(block):
    """0 for a block that reads well, else the number of its refusal."""
    got = read(block)
    return got if isinstance(got, int) else 0


# ---------------------------------------------------------------------------
# Small tools for making cases
# ---------------------------------------------------------------------------

def counts(*first):
    """Sixteen counts: those given, then zeros."""
    return tuple(first) + (0,) * (STATIONS - len(first))


def message(**changes):
    """The fields of a plain good message, with some of them changed."""
    fields = dict(n=3, station=2, number=5, after=counts(7, 4, 300), klass=1,
                  order=bytes([1, 3, 5, 0, 44, 1, 4, 0]), note=b"HALL")
    fields.update(changes)
    return fields


def good(**changes):
    """A block that reads well; it is an error here if it does not."""
    block = fill(**message(**changes))
    assert isinstance(block, bytes), changes
    return block


def odd(**changes):
    """A block with a correct check, whatever its fields are."""
    return lay_out(**message(**changes))


def with_bytes(block, places):
    """The block with new bytes at some places; the check stays as it was."""
    changed = bytearray(block)
    for place, byte in places.items():
        changed[place] = byte
    return bytes(changed)


def sealed_with(block, places):
    """The block with new bytes at some places and the check made good again."""
    return seal(with_bytes(block, places))


def altered(block, place):
    """The block with one byte made different; the check stays as it was."""
    return with_bytes(block, {place: (block[place] + 1) % 256})


def exchanged(block, p, q):
    """The block with the bytes of two places exchanged; the check stays."""
    return with_bytes(block, {p: block[q], q: block[p]})


# ---------------------------------------------------------------------------
# The stream. A case is (what it shows, block, answer); the answer is written
# down by hand, and the selftest compares it with what read says.
# ---------------------------------------------------------------------------

def good_cases():
    """Blocks at the edges of what reads well."""
    full = (NUMBER_MAX,) * (STATIONS - 1)
    return [
        # The stream opens with this one. It follows nothing, so a program
        # that also accepts messages does not end at its first block.
        ("first message, follows nothing", good(number=1, after=counts()), 0),
        ("plain", good(), 0),
        ("n 1, all fields least, empty note",
         good(n=1, station=1, number=1, after=counts(), klass=0,
              order=bytes(8), note=b""), 0),
        ("n 16, station 16, everything greatest",
         good(n=16, station=16, number=4096, after=full + (4095,), klass=3,
              order=b"\xff" * 8, note=b"~" * 64), 0),
        ("n 16, station 1",
         good(n=16, station=1, number=1, after=counts(0, 9)), 0),
        ("number 4096", good(number=4096, after=counts(0, 4095, 0)), 0),
        ("number with two unlike bytes",
         good(number=0x0203, after=counts(0, 0x0202, 0x0104)), 0),
        ("number with low byte 0",
         good(number=0x0100, after=counts(0, 0x00FF, 0)), 0),
        ("count 4096", good(after=counts(4096, 4, 0)), 0),
        ("class 0", good(klass=0), 0),
        ("class 3", good(klass=3), 0),
        ("empty note", good(note=b""), 0),
        ("note of 1 character", good(note=b"x"), 0),
        ("note of 64 blanks", good(note=b" " * 64), 0),
        ("note of 64 characters 126", good(note=b"~" * 64), 0),
        ("note of all lawful characters, first part",
         good(note=bytes(range(32, 96))), 0),
        ("note of all lawful characters, second part",
         good(note=bytes(range(96, 127))), 0),
        ("order bytes all 255", good(order=b"\xff" * 8), 0),
        ("order bytes all 0", good(order=bytes(8)), 0),
    ]


def layout_cases():
    """Broken layouts, each with a correct check.

    Every condition is broken alone where that can be, so that a reader which
    leaves it out is found. It cannot be in three places: with n 0 no station
    is lawful, with number 0 no own count is, and a number above 4097 asks for
    an own count above 4096. Some further cases break several at once.
    """
    base = good()
    sixteen = good(n=16, station=1, number=1, after=counts())
    big_endian = {4: 0, 5: 17,      # number 17 with its bytes exchanged
                  8: 0, 9: 16}      # and own count 16, in the same way
    return [
        ("kind 0", sealed_with(base, {0: 0}), 3),
        ("kind 2", sealed_with(base, {0: 2}), 3),
        ("kind 255", sealed_with(base, {0: 255}), 3),

        ("n 0", odd(n=0, station=1, number=1, after=counts()), 3),
        ("n 0, station 0", odd(n=0, station=0, number=1, after=counts()), 3),
        ("n 17", odd(n=17), 3),
        ("n 255", odd(n=255), 3),
        # Here the own count would lie behind the sixteen counts.
        ("n 17, station 17", odd(n=17, station=17, number=1, after=counts(),
                                 order=bytes(8)), 3),
        ("n 255, station 255", odd(n=255, station=255, number=1,
                                   after=counts(), order=bytes(8)), 3),

        # Number 1 with all counts 0 fits every station, so that nothing but
        # the station is wrong.
        ("station 0", odd(station=0, number=1, after=counts()), 3),
        ("station n + 1", odd(station=4, number=1, after=counts()), 3),
        ("station 17 of 16", odd(n=16, station=17, number=1, after=counts(),
                                 order=bytes(8)), 3),
        ("station 255", odd(station=255, number=1, after=counts()), 3),

        ("class 4", odd(klass=4), 3),
        ("class 255", odd(klass=255), 3),

        ("number 0, own count 0", odd(number=0, after=counts()), 3),
        ("number 0, own count 65535",
         odd(number=0, after=counts(0, 65535, 0)), 3),
        ("number 4097", odd(number=4097, after=counts(0, 4096, 0)), 3),
        ("number 65535", odd(number=65535, after=counts(0, 65534, 0)), 3),
        ("number 17 with its bytes exchanged",
         odd(number=0x1100, after=counts(0, 16, 0)), 3),
        # A reader that takes the high byte first would like this one.
        ("number 17 and own count 16 with their bytes exchanged",
         sealed_with(odd(number=0, after=counts()), big_endian), 3),

        ("first count 4097", odd(after=counts(4097, 4, 0)), 3),
        ("last count within n 4097", odd(after=counts(0, 4, 4097)), 3),
        ("sixteenth count 4097",
         odd(n=16, station=1, number=1, after=counts()[:15] + (4097,)), 3),
        ("count 65535", odd(after=counts(65535, 4, 0)), 3),

        ("own count is the number", odd(after=counts(7, 5, 300)), 3),
        ("own count is the number less 2", odd(after=counts(7, 3, 300)), 3),
        ("own count 0 at number 5", odd(after=counts(7, 0, 300)), 3),
        ("own count 1 at number 1",
         odd(number=1, after=counts(7, 1, 300)), 3),
        ("own count wrong in its high byte",
         odd(after=counts(7, 4 + 256, 300)), 3),
        # Right for the neighbours of the own station, not for itself.
        ("own count at the wrong station",
         odd(station=2, number=5, after=counts(4, 0, 4)), 3),

        ("count for station n + 1", odd(after=counts(7, 4, 300, 1)), 3),
        ("count for station n + 1, high byte only",
         odd(after=counts(7, 4, 300, 256)), 3),
        ("count for station 16 of 3", odd(after=counts(7, 4, 300)[:15] + (1,)),
         3),
        ("count for station 2 of 1",
         odd(n=1, station=1, number=1, after=counts(0, 1)), 3),
        ("count for station 16 of 15",
         odd(n=15, after=counts(7, 4, 300)[:15] + (4096,)), 3),

        ("note of 65 characters", odd(note=b"x" * 65), 3),
        ("note of 255 characters", odd(note=b"x" * 255), 3),
        ("note length 65, no characters", sealed_with(good(note=b""), {46: 65}),
         3),
        ("note length one too great", sealed_with(base, {46: 5}), 3),
        ("note length one too small", sealed_with(base, {46: 3}), 3),

        ("first character 31", odd(note=b"\x1fALL"), 3),
        ("last character 31", odd(note=b"HAL\x1f"), 3),
        ("first character 127", odd(note=b"\x7fALL"), 3),
        ("last character 127", odd(note=b"HAL\x7f"), 3),
        ("character 255", odd(note=b"HA\xffL"), 3),
        ("character 128", odd(note=b"HA\x80L"), 3),
        ("character 0", odd(note=b"HA\x00L"), 3),
        ("64th character 127", odd(note=b"x" * 63 + b"\x7f"), 3),

        ("spare byte right after the note", sealed_with(base, {51: 1}), 3),
        ("spare byte that would be a character", sealed_with(base, {51: 65}),
         3),
        ("spare byte right after an empty note",
         sealed_with(good(note=b""), {47: 1}), 3),
        ("spare byte right after a note of 64",
         sealed_with(good(note=b"~" * 64), {111: 1}), 3),
        ("spare byte in the middle", sealed_with(base, {300: 1}), 3),
        ("spare byte at place 507", sealed_with(base, {507: 1}), 3),
        ("spare byte 255 at place 507, n 16", sealed_with(sixteen, {507: 255}),
         3),

        ("zero bytes only", bytes(SIZE), 3),
        ("bytes 255 with their check", seal(b"\xff" * SIZE), 3),
    ]


def check_cases():
    """Blocks whose check differs, and their neighbours that read well."""
    base = good()
    cases = [("byte altered at place %d" % place, altered(base, place), 2)
             for place in (0, 46, 47, 200, 507, 508, 509, 510, 511)]
    cases += [
        ("unequal bytes exchanged at 1 and 2", exchanged(base, 1, 2), 2),
        ("unequal bytes exchanged at 38 and 39", exchanged(base, 38, 39), 2),
        ("unequal bytes exchanged at 47 and 48", exchanged(base, 47, 48), 2),
        ("unequal bytes exchanged at 0 and 507", exchanged(base, 0, 507), 2),
        ("equal bytes exchanged at 49 and 50", exchanged(base, 49, 50), 0),
        ("equal bytes exchanged at 100 and 507", exchanged(base, 100, 507), 0),
        ("check bytes in reverse order",
         base[:CHECK_AT] + base[CHECK_AT:][::-1], 2),
        ("check 0", base[:CHECK_AT] + bytes(4), 2),
        # Broken in both; the check is tested first.
        ("class 4 and a wrong check", altered(odd(klass=4), 511), 2),
        ("bytes 255 only", b"\xff" * SIZE, 2),
    ]
    return cases


def mixed(first, second):
    """Both lists in their own order, the shorter spread over the longer."""
    if len(first) > len(second):
        first, second = second, first
    result, taken = [], 0
    for index, case in enumerate(second):
        due = (index + 1) * len(first) // len(second)
        result += first[taken:due]
        taken = due
        result.append(case)
    return result


def stream_cases():
    """A good block first, then good and bad ones mixed, last a short one."""
    opening, *more_good = good_cases()
    return ([opening] + mixed(more_good, layout_cases() + check_cases())
            + [("plain block less its last byte", good()[:511], 1)])


def stream_bytes():
    return b"".join(block for _, block, _ in stream_cases())


# ---------------------------------------------------------------------------
# What daysheet prints
# ---------------------------------------------------------------------------

def pieces(data):
    """The blocks of a stream; the last may be short, but is never empty."""
    return [data[at:at + SIZE] for at in range(0, len(data), SIZE)]


def expected_output(data):
    """The text daysheet prints while it only reads its blocks.

    A refused block gives one line, a good one none, and after a refused first
    block nothing more is read.
    """
    lines = []
    for index, piece in enumerate(pieces(data)):
        answer = answer_of(piece)
        if answer != 0:
            lines.append("refused %d\n" % answer)
            if index == 0:
                break
    return "".join(lines)


# ---------------------------------------------------------------------------
# Blocks for unit tests
# ---------------------------------------------------------------------------

def unit_blocks():
    """(name, comment, block) of the blocks that the rust command prints."""
    booking = bytes([1, 3, 5, 0]) + (300).to_bytes(2, "little") + bytes([4, 0])
    greatest = (NUMBER_MAX,) * (STATIONS - 1) + (NUMBER_MAX - 1,)
    return [
        ("BOOKING",
         'n 3, station 2, number 1, class 1, after (1, 0, 0), '
         'order [1, 3, 5, 0, 44, 1, 4, 0], note "HALL"',
         fill(3, 2, 1, counts(1, 0, 0), 1, booking, b"HALL")),
        ("LEAST",
         "n 1, station 1, number 1, class 0, after all 0, order all 0, no note",
         fill(1, 1, 1, counts(), 0, bytes(8), b"")),
        ("GREATEST",
         "n 16, station 16, number 4096, class 3, after 4096 but own 4095, "
         "order all 255, note 64 times '~'",
         fill(16, 16, 4096, greatest, 3, b"\xff" * 8, b"~" * 64)),
    ]


def rust_text():
    """The unit blocks as the bytes that are not 0, check bytes included."""
    text = []
    for name, comment, block in unit_blocks():
        pairs = [(place, byte) for place, byte in enumerate(block) if byte]
        text.append("// %s" % comment)
        text.append("const %s: [(usize, u8); %d] = [" % (name, len(pairs)))
        for at in range(0, len(pairs), 8):
            text.append("    " + " ".join("(%d, %d)," % pair
                                          for pair in pairs[at:at + 8]))
        text.append("];")
        text.append("const %s_CHECK: u32 = %d;" % (name, check_of(block)))
        text.append("")
    return "\n".join(text)


# ---------------------------------------------------------------------------
# Selftest
# ---------------------------------------------------------------------------

def edge_or_any(rng, low, high):
    """A number from low to high, the two ends more often than the others."""
    inner = rng.randint(low, high)
    return rng.choice((low, high, inner, inner))


def random_message(rng):
    """The fields of a lawful message with a note."""
    n = edge_or_any(rng, 1, STATIONS)
    station = edge_or_any(rng, 1, n)
    number = edge_or_any(rng, 1, NUMBER_MAX)
    after = [0] * STATIONS
    for index in range(n):
        after[index] = edge_or_any(rng, 0, NUMBER_MAX)
    after[station - 1] = number - 1
    note = bytes(edge_or_any(rng, CHARACTER_MIN, CHARACTER_MAX)
                 for _ in range(edge_or_any(rng, 0, NOTE_MAX)))
    return dict(n=n, station=station, number=number, after=tuple(after),
                klass=rng.randint(0, CLASS_MAX),
                order=bytes(rng.randrange(256) for _ in range(ORDER_SIZE)),
                note=note)


def disturbed(rng, fields):
    """The fields with one of them put somewhere else, lawful or not."""
    fields = dict(fields)
    name = rng.choice(("n", "station", "number", "after", "klass", "note"))
    if name in ("n", "station"):
        fields[name] = rng.randint(0, 18)
    elif name == "number":
        fields[name] = rng.choice((0, 4097, fields["number"] + 1))
    elif name == "klass":
        fields[name] = rng.randint(0, 5)
    elif name == "after":
        after = list(fields["after"])
        after[rng.randrange(STATIONS)] = rng.choice((0, 1, 4096, 4097, 65535))
        fields[name] = tuple(after)
    else:
        character = rng.choice((31, 32, 126, 127, 255))
        fields[name] = bytes([character]) * rng.choice((0, 1, 64, 65))
    return fields


def test_there_and_back(rng):
    for _ in range(2000):
        fields = random_message(rng)
        assert read(fill(**fields)) == fields, fields


def test_fill_and_read_agree(rng):
    """Filling refuses just the fields whose laid-out block reading refuses."""
    refused = 0
    for _ in range(4000):
        fields = disturbed(rng, random_message(rng))
        filled = fill(**fields)
        if filled == LAYOUT:
            refused += 1
            assert read(lay_out(**fields)) == LAYOUT, fields
        else:
            assert read(filled) == fields, fields
    assert 500 < refused < 3900, refused      # both outcomes were tried


def good_samples(rng):
    return ([block for _, block, _ in good_cases()[:4]]
            + [fill(**random_message(rng)) for _ in range(3)])


def test_one_byte_altered(rng):
    """At every place, and to several values, an altered byte is answered 2."""
    for block in good_samples(rng):
        for place in range(SIZE):
            old = block[place]
            values = {0, 255, old ^ 1, old ^ 128, (old + 1) % 256,
                      rng.randrange(256)} - {old}
            for value in values:
                assert read(with_bytes(block, {place: value})) == CHECK, (
                    place, value)


def test_two_bytes_exchanged(rng):
    """Unequal bytes below the check: answer 2. Equal ones: nothing happens."""
    for block in good_samples(rng):
        unequal = equal = 0
        while unequal < 1000:
            p, q = rng.randrange(CHECK_AT), rng.randrange(CHECK_AT)
            if block[p] != block[q]:
                unequal += 1
                assert read(exchanged(block, p, q)) == CHECK, (p, q)
            elif equal < 50:
                equal += 1
                assert read(exchanged(block, p, q)) == read(block), (p, q)


def test_lengths():
    for size in (0, 1, 2, 511, 513, 1024):
        assert read((good() * 2)[:size]) == LENGTH, size
        assert label((good() * 2)[:size], b"") == LENGTH, size


def test_label():
    sheet = b"NORTH       MIDDLE HALL SOUTH       "
    assert label(good(), sheet) == b"HALL"
    assert label(good(note=b""), sheet) == b"MIDDLE HALL "
    # A sheet of the wrong length is refused with and without a note.
    for wrong in (b"", sheet[:-1], sheet + b" ", sheet[:24], sheet + sheet):
        assert label(good(), wrong) == SETTING
        assert label(good(note=b""), wrong) == SETTING
    # The block's own refusals come before the sheet's.
    assert label(altered(good(), 0), b"") == CHECK
    assert label(odd(klass=4), b"") == LAYOUT


def test_stream():
    """The answers written down by hand are those of reading."""
    cases = stream_cases()
    for name, block, answer in cases:
        assert answer_of(block) == answer, (name, answer_of(block), answer)
    names = [name for name, _, _ in cases]
    assert len(set(names)) == len(names)
    # No piece but the last is short, so that the stream is cut where it was
    # joined.
    assert pieces(stream_bytes()) == [block for _, block, _ in cases]


def test_checks_by_hand():
    """Check values worked out without this script."""
    booking, least, _ = (block for _, _, block in unit_blocks())
    # 1*1 + 2*1 + 3*1 + 5*1
    assert check_of(least) == 11
    # 1*1 + 2*3 + 3*2 + 4*1 + 5*1 + 7*1 = 29; order 39*1 + 40*3 + 41*5 + 43*44
    # + 44*1 + 45*4 = 2480; note length 47*4 = 188; note 48*72 + 49*65 + 50*76
    # + 51*76 = 14317
    assert check_of(booking) == 29 + 2480 + 188 + 14317 == 17014
    assert check_of(b"\xff" * SIZE) == 255 * 508 * 509 // 2 == 32967930


def test_expected_output():
    short, bad = good()[:511], odd(klass=4)
    assert expected_output(b"") == ""
    assert expected_output(good() * 3) == ""
    assert expected_output(b"\x01") == "refused 1\n"
    assert expected_output(short) == "refused 1\n"
    assert expected_output(bad + good() + bad) == "refused 3\n"
    assert expected_output(good() + bad + short) == "refused 3\nrefused 1\n"


def selftest():
    rng = random.Random(512)
    test_checks_by_hand()
    test_lengths()
    test_label()
    test_stream()
    test_expected_output()
    test_there_and_back(rng)
    test_fill_and_read_agree(rng)
    test_one_byte_altered(rng)
    test_two_bytes_exchanged(rng)
    print("selftest: all well")


# ---------------------------------------------------------------------------
# Commands
# ---------------------------------------------------------------------------

def main(arguments):
    if len(arguments) == 2 and arguments[0] == "stream":
        with open(arguments[1], "wb") as out:
            out.write(stream_bytes())
    elif len(arguments) == 2 and arguments[0] == "expect":
        with open(arguments[1], "rb") as source:
            sys.stdout.write(expected_output(source.read()))
    elif arguments == ["rust"]:
        sys.stdout.write(rust_text())
    elif arguments == ["list"]:
        for index, (name, _, answer) in enumerate(stream_cases()):
            print("%3d  %d  %s" % (index, answer, name))
    elif arguments == ["selftest"]:
        selftest()
    else:
        sys.exit(__doc__)


if __name__ == "__main__":
    main(sys.argv[1:])
