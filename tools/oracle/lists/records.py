"""Section 11: records for other tools, region lists as files of JSON."""
from itertools import product

from .ask import counted
from .explain import Sums

NUMBER, NAME = 11, 'records'
# The Rust has no records: what is answered is written here.
ASKS_RUST, ALTERED = False, ()
ABOUT = """
Records. Lines, blocks and sums are read as in section 1. In front, back and text the bytes 1 and 2 stand for the
names "start" and "end" with their quotes, all others for themselves.

r  reading into a list: how many cells it has; front; back; text: the file is front, text and back
m  reading files that differ in one byte: how many cells; 0 each byte left out, 1 each of the 256 bytes put before
   each byte and behind the last, 2 each of them in place of each byte; text: the file that is altered
w  writing: how many bytes there is room for; the regions' stated count; the list; no text

The answer to r is 1, the count or 0, the refusal or 0, behind 10 the place and else 0, and all cells as a list; a
cell that isn't written holds what it held before, 1000 and how many were still to come. The answer to m is as a
block's, the files, each in full, being its texts. The answer to w is 1, the size or 0, the refusal or 0, and all
bytes as a list; one that isn't written holds 128 and how many were still to come.
What is answered is written from document 02.
"""

# "white space as the RFC allows": space, tab, line feed, carriage return
WHITE, DIGITS, NAMES = b' \t\n\r', b'0123456789', (b'start', b'end')
# "plain unsigned integers to 4,294,967,295"
GREATEST = 4294967295
# In a line's texts a byte stands for a name in its quotes.
SIGNS = {1: b'"start"', 2: b'"end"'}


class Broken(Exception):
    """A file isn't of the form."""

    def __init__(self, place):
        self.place = place


class Reader:
    """Goes through a file, and stops at the first byte that can't continue one of this form, or at its end."""

    def __init__(self, file):
        self.bytes, self.at = [*file, None], 0

    def now(self):
        return self.bytes[self.at]

    def one_of(self, wanted):
        """The next byte, which must be one of these."""
        byte = self.now()
        if byte is None or byte not in wanted:
            raise Broken(self.at)
        self.at += 1
        return byte

    def white(self):
        while self.now() is not None and self.now() in WHITE:
            self.at += 1

    def after_white(self, wanted):
        """The next byte that isn't white, which must be one of these, and the white space behind it."""
        self.white()
        byte = self.one_of(wanted)
        self.white()
        return byte

    def number(self):
        """"without leading zeros": behind a 0 no digit is asked for, so that none can come."""
        value = self.one_of(DIGITS) - 48
        while value and self.now() is not None and self.now() in DIGITS:
            value = value * 10 + self.now() - 48
            if value > GREATEST:
                raise Broken(self.at)
            self.at += 1
        return value

    def name(self, names):
        """One of the names; they differ in their first byte."""
        self.one_of(b'"')
        first = self.one_of([name[0] for name in names])
        name = next(name for name in names if name[0] == first)
        for byte in name[1:] + b'"':
            self.one_of([byte])
        return name

    def object(self):
        """"members in either order", each once."""
        members = {}
        for end in b',}':
            name = self.name([name for name in NAMES if name not in members])
            self.after_white(b':')
            members[name] = self.number()
            self.after_white([end])
        return members[b'start'], members[b'end']

    def regions(self):
        found = []
        self.after_white(b'[')
        wanted = b'{]'
        while self.after_white(wanted) != ord(']'):
            found.append(self.object())
            if self.one_of(b',]') == ord(']'):
                break
            wanted = b'{'
        self.white()
        if self.now() is not None:
            raise Broken(self.at)
        return found


def is_shaped(regions):
    """"A list that is unsorted, overlapping or holds an empty region is refused"."""
    low = 0
    for start, end in regions:
        if not low <= start < end <= GREATEST:
            return False
        low = end
    return True


def read(file, room):
    """The refusal or 0, behind 10 its place and else 0, and the regions: "Refusals: … 10 comes first when reading"."""
    try:
        regions = Reader(file).regions()
    except Broken as broken:
        return 10, broken.place, []
    if not is_shaped(regions):
        return 5, 0, []
    return (3, 0, []) if len(regions) > room else (0, 0, regions)


def layout(regions):
    """"We write "start" first and no white space"."""
    return b'[' + b','.join(b'{"start":%d,"end":%d}' % region for region in regions) + b']'


def write(numbers, count, room):
    """The refusal or 0, and the file."""
    regions = list(zip(numbers[::2], numbers[1::2]))
    if count > len(regions) or not is_shaped(regions[:count]):
        return 5, b''
    file = layout(regions[:count])
    return (3, b'') if len(file) > room else (0, file)


def signed(file):
    """A file as it stands in a line."""
    assert not any(sign in file for sign in SIGNS)
    for sign, name in SIGNS.items():
        file = file.replace(name, bytes([sign]))
    return file


def full(text):
    """The file that a line's text stands for."""
    for sign, name in SIGNS.items():
        text = text.replace(bytes([sign]), name)
    return text


def read_answer(file, cells):
    refusal, place, regions = read(file, cells // 2)
    left = [n for region in regions for n in region]
    left += [1000 + cells - i for i in range(len(left), cells)]
    return [1, len(regions), refusal, place, cells, *left]


def write_answer(numbers, count, room):
    refusal, file = write(numbers, count, room)
    return [1, len(file), refusal, room, *file, *(128 + room - i for i in range(len(file), room))]


def altered(file, mode):
    """All files that differ from one in a byte, in the order in which they are read."""
    if mode == 0:
        return (file[:i] + file[i + 1:] for i in range(len(file)))
    behind = mode - 1
    return (file[:i] + bytes([byte]) + file[i + behind:] for i in range(len(file) + 1 - behind) for byte in range(256))


def texts(alphabet, length):
    """All texts of a block, in the order in which they are read."""
    return (bytes(letters[::-1]) for letters in product(alphabet, repeat=length))


class FileSums(Sums):
    """The sums of a block whose texts have no places."""

    def text(self, text, answer):
        self.asked += 1
        self.feed([len(text), *text, *answer])

    def told(self):
        return [self.asked, self.first, self.second]


class Recorder:
    """Puts questions and their answers into a list."""

    def __init__(self, listing):
        self.listing = listing

    def reads(self, file, cells=4):
        question = f'cells {cells}, front 0, back 0, text {counted(signed(file))}'
        self.listing.put('r', question, read_answer(file, cells))

    def writes(self, numbers, count=None, room=None):
        """The whole list, and just room enough, or for a refusal some, where nothing else is said."""
        count = len(numbers) // 2 if count is None else count
        room = len(write(numbers, count, GREATEST)[1]) or 8 if room is None else room
        question = f'room {room}, count {count}, list {counted(numbers)}, text 0'
        self.listing.put('w', question, write_answer(numbers, count, room))

    def alters(self, file, cells=4):
        for mode in range(3):
            sums = FileSums()
            for other in altered(file, mode):
                sums.text(other, read_answer(other, cells))
            self.listing.put('m', f'cells {cells}, mode {mode}, text {counted(signed(file))}', sums.told())

    def block(self, front, back, alphabet, length, cells):
        sums, before, behind = FileSums(), full(front), full(back)
        for text in texts(alphabet, length):
            sums.text(text, read_answer(before + full(text) + behind, cells))
        question = f'cells {cells}, front {counted(front)}, back {counted(back)}, bytes {counted(alphabet)}, length {length}'
        self.listing.put('R', question, sums.told())


def make(listing):
    ask_all(listing, Recorder(listing))


def ask_all(listing, recorder):
    for part in (files, places, numbers, joints, shapes, rooms, writing, alterations, blocks):
        part(listing, recorder)


# Files that are altered in every byte; both orders, white space, two and three regions, the largest number, none.
ALTERED_FILES = (b'[]', b' [ ] ', b'[{"start":0,"end":3}]', b'[{"end":7,"start":4}]', b'[{"start":0,"end":3},{"end":9,"start":5}]',
                 b' [ {"start" : 10 ,\t"end" : 4294967295 }\r\n]\n', b'[{"start":4294967294,"end":4294967295}]',
                 b'[{"start":0,"end":1},{"start":1,"end":2},{"start":3,"end":40}]', b'[{"start":3,"end":3}]')
ONE = b'[{"start":0,"end":3}]'
TWO = b'[{"start":0,"end":3},{"start":5,"end":9}]'
TURNED = b'[{"end":3,"start":0},{"end":9,"start":5}]'
SPACED = b' [\t{\n"start"\r:  0 , "end" : 3 } , {"end": 9, "start" :5}\n]\n'


def files(listing, recorder):
    listing.comment('files of the form')
    for file in (b'[ ]', b'\n[\r\t]\n ', TWO, TURNED, SPACED, *ALTERED_FILES):
        recorder.reads(file)
    listing.comment('files that break off, at every place')
    for file in (TWO, TURNED, SPACED, b'[{"start":10,"end":4294967295}]'):
        for end in range(len(file)):
            recorder.reads(file[:end])


def places(listing, recorder):
    listing.comment('the place: what can\'t continue a file')
    for file in (b'', b' ', b'[', b'\xef\xbb\xbf[]', b'\xfe\xff[]', b'\xff[]', b'{}', b'null', b'true', b'0', b'""', b'"start"', b'[[]]',
                 b'[[', b'[]]', b'[][]', b'[],', b'[]x', b'[] \n0', b'[]\0', b'[\0]', b'[,]', b'[null]', b'[{}]', b'[{},]', b'[0]',
                 b'[0,3]', b'["start"]', b'[{"start":0}]', b'[{"end":3}]', b'[{"start":0,}]', b'[{"start":0,"end":3,}]',
                 b'[{"start":0,"end":3},]', b'[{"start":0,"end":3} {"start":5,"end":9}]', b'[{"start":0,"end":3},,{"start":5,"end":9}]',
                 b'[{"start":0 "end":3}]', b'[{"start" 0,"end":3}]', b'[{"start"::0,"end":3}]', b'[{,"start":0,"end":3}]',
                 b'[{"start":0,"end":3}}]', b'[{{"start":0,"end":3}]', b'[{"start":0,"end":3]', b'[{"start":0,"end":3)',
                 b'[{"start":0,"start":3}]', b'[{"end":0,"end":3}]', b'[{"start":0,"end":3,"end":3}]', b'[{"start":0,"end":3,"start":0}]',
                 b'[{"start":0,"end":3,"cause":1}]', b'[{"cause":1,"start":0,"end":3}]', b'[{"Start":0,"end":3}]', b'[{"START":0}]',
                 b'[{"starts":0}]', b'[{"star":0}]', b'[{"ends":0}]', b'[{"en":0}]', b'[{" start":0}]', b'[{"start ":0}]', b'[{"":0}]',
                 b"[{'start':0,'end':3}]", b'[{start:0,end:3}]', b'[{0:0,"end":3}]', b'[{"st\\u0061rt":0,"end":3}]',
                 b'[{"\\u0073tart":0}]', b'[{"start\\":0}]', b'[{"e\\nd":0}]', b'[{"start":null,"end":3}]', b'[{"start":"0","end":3}]',
                 b'[{"start":[0],"end":3}]', b'[{"start":{},"end":3}]', b'[{"start":true,"end":3}]', b'[{"start":,"end":3}]',
                 b'[{"start":0,"end":}]', b'//\n[]', b'/**/[]', b'[]//', b'[/**/]', b'[{/**/"start":0,"end":3}]', b'# a\n[]',
                 b'[{"start":0,"end":3}]\n[{"start":5,"end":9}]', b'{"start":0,"end":3}', b'{"start":0,"end":3}\n{"start":5,"end":9}',
                 b'[[{"start":0,"end":3}]]', b'[[0,3],[5,9]]', b'[{"start":0,"end":3}],[]'):
        recorder.reads(file)


def numbers(listing, recorder):
    listing.comment('numbers: the largest and what is over it, leading zeros, signs, fractions, exponents')
    for digits in (b'0', b'1', b'9', b'10', b'99', b'999999999', b'4294967294', b'4294967295', b'4294967296', b'4294967299', b'4294967300',
                   b'4294970000', b'4300000000', b'5000000000', b'9999999999', b'10000000000', b'42949672950', b'42949672951',
                   b'18446744073709551616', b'00', b'01', b'007', b'0 1', b'1 1', b'-0', b'-1', b'+1', b'-', b'0.0', b'1.', b'1.5', b'.5',
                   b'1e1', b'1E1', b'0e0', b'e1', b'0x1', b'1_0', b'1,0', b'NaN', b'Infinity', b'-Infinity', b'1a', b'\xd9\xa1',
                   b'\xef\xbc\x91'):
        recorder.reads(b'[{"start":%b,"end":4294967295}]' % digits)
        recorder.reads(b'[{"end":%b,"start":0}]' % digits)
        recorder.reads(b'[{"start":0,"end":%b' % digits)


def joints(listing, recorder):
    listing.comment('white space at each joint of the grammar, and what the RFC has not: vertical tab, form feed, no-break space, zero')
    parts = (b'[', b'{', b'"start"', b':', b'5', b',', b'"end"', b':', b'9', b'}', b',', b'{', b'"end"', b':', b'12', b',', b'"start"',
             b':', b'9', b'}', b']')
    for k in range(len(parts) + 1):
        for white in (b' ', b'\t', b'\n', b'\r', b'\r\n \t', b'\v', b'\f', b'\xc2\xa0', b'\xa0', b'\0'):
            recorder.reads(b''.join(parts[:k]) + white + b''.join(parts[k:]))
    listing.comment('and within what has no joint')
    for file in (b'[{"start":1 2,"end":34}]', b'[{"st art":1,"end":3}]', b'[{" start":1,"end":3}]', b'[{"end ":1,"start":3}]',
                 b'[{"e\nnd":1,"start":3}]'):
        recorder.reads(file)


def shapes(listing, recorder):
    listing.comment('refusal 5: unsorted, overlapping, empty; touching regions are a list; list shape behind the form, and before the room')
    for four in product(range(3), repeat=4):
        recorder.reads(layout([four[:2], four[2:]]))
        recorder.writes(list(four))
    for regions in ([(0, 3), (3, 5), (5, 9)], [(0, 3), (3, 5), (4, 9)], [(0, 3), (5, 5), (5, 9)], [(4, 9), (0, 3)], [(0, 9), (2, 3)],
                    [(3, 0)], [(4294967295, 4294967295)], [(0, 4294967295)], [(4294967294, 4294967295), (4294967295, 4294967295)]):
        file = layout(regions)
        for cells in (0, 2, 6):
            recorder.reads(file, cells)
        recorder.reads(file + b'x')
        recorder.reads(file[:-1])
        recorder.writes([n for region in regions for n in region])


def rooms(listing, recorder):
    listing.comment('refusal 3: one region too many; a cell that is left over; nothing is written then')
    for file in (b'[]', ONE, TWO, TURNED, layout([(0, 1), (1, 2), (2, 3)])):
        for cells in range(9):
            recorder.reads(file, cells)
    for file in (b'[', b'[{"start":3,"end":0}', b'[{"start":3,"end":0}]'):
        for cells in range(3):
            recorder.reads(file, cells)


def writing(listing, recorder):
    listing.comment('writing: refusal 5 before 3, the stated count, a number left over, each room')
    for room in range(5):
        recorder.writes([], 0, room)
        recorder.writes([7, 7], 0, room)
    for list_of in ([0, 3], [0, 3, 5], [0, 3, 5, 9], [0, 3, 2, 9], [0, 3, 3, 3], [9, 12, 0, 3], [3, 0, 5, 9], [0, 1, 1, 2, 2, 3, 3]):
        for count in sorted({*range(len(list_of) // 2 + 2), GREATEST}):
            for room in (0, 64):
                recorder.writes(list_of, count, room)
    for list_of in ([0, 3], [0, 3, 5, 9]):
        size = len(layout(list(zip(list_of[::2], list_of[1::2]))))
        for room in range(size + 3):
            recorder.writes(list_of, room=room)
    powers = [10 ** k + step for k in range(10) for step in (-1, 0)]
    for start, end in [*zip(powers, powers[1:]), (0, GREATEST), (GREATEST - 1, GREATEST), (GREATEST, GREATEST)]:
        recorder.writes([start, end])
        if start < end:
            recorder.writes([start, end], room=len(layout([(start, end)])) - 1)
            recorder.reads(layout([(start, end)]))
    recorder.writes([123456789, 1234567890, 4294967294, GREATEST])
    recorder.writes([123456789, 1234567890, 4294967294, GREATEST], room=80)


def alterations(listing, recorder):
    listing.comment('each byte left out, put and set at each place')
    for file in ALTERED_FILES:
        recorder.alters(file)


# What stands before a block's texts and behind them, the bytes of these, their greatest length, and how many cells there are.
TOKENS = b'[]{},:\1\00209 '
BLOCKS = (
    (b'', b'', TOKENS, 5, 2),
    (b'[{', b'}]', b'\1\2:,09', 7, 2),
    (b'[{\1:', b',\2:9}]', b'0149-.eE+ \\"', 4, 2),
    (b'[{\1:4294967', b',\2:4294967295}]', b'0123456789', 4, 2),
    (b'[{\1:0,\2:42949', b'}]', b'0123456789', 5, 2),
    (b'[{\1:', b',\2:9}]', TOKENS, 4, 2),
    (b'[{\1:0,\2:1}', b']', TOKENS, 4, 4),
    (b'[{\1:0,\2:1}', b'{\2:7,\1:4}]', TOKENS, 4, 4),
    (b'[', b'{\2:7,\1:4}]', TOKENS, 4, 4),
    (b'[{\1:0,\2:1}]', b'', TOKENS, 4, 3),
    (b'[{"', b'":0,\2:1}]', b'starend', 5, 3),
)


def blocks(listing, recorder):
    listing.comment('blocks: every run of signs between what may stand before it and behind it')
    for front, back, alphabet, longest, cells in BLOCKS:
        for length in range(longest + 1):
            recorder.block(front, back, alphabet, length, cells)
