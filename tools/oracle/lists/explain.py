"""Section 10: why a line isn't on the work sheet."""
from itertools import product

from . import sheet, spans
from .ask import commas, counted, hexed
from .context import HOUSE

NUMBER, NAME = 10, 'explain'
# The Rust has no explanation: the oracle is asked for a text's regions, and for its sheet, to which the lines that are on it are held.
ALTERED = ()
ABOUT = """
Explanations. Lines, blocks and sums are read as in section 1; a text's lines stand for its places, counted from
0, which is none, to n + 1.

w  a line of a text, by a list that is given: the regions' stated count; the regions, two numbers each; text; line
b  the same by the list that is built of the text: text; line

The answer is 1, the reason (0 it is on the sheet, 1 to 6 as document 02 has them) and with 6 the region's number
and its two places; or 0 and the refusal. What the reason is is written here from document 02; the regions of b
are the Rust's.
"""

# "line end 10 … separator 32, tab 9 … markers `- * +`; delimiters `. )`"
EOL, BLANKS, MARKERS, DELIMITERS, DIGITS = 10, b' \t', b'-*+', b'.)', b'0123456789'

# dash, one, full stop, blank, line end, backtick
TELLING = b'-1. \n`'
# Lists that are made by hand, and the longest text of a block
HANDMADE, LONGEST = ([], [0, 2], [1, 3], [2, 3, 3, 5]), 5


def starts(text):
    """Where each line begins: "Line 1 always exists, and a line end with a byte after it starts the next"."""
    return [0, *(k for k in range(1, len(text)) if text[k - 1] == EOL)]


def body_of(text, start):
    """What follows a line's leading blanks, and where it begins."""
    end = text.find(EOL, start)
    line = text[start:] if end < 0 else text[start:end]
    body = line.lstrip(BLANKS)
    return body, start + len(line) - len(body)


def why(text, regions, line):
    """The first reason that holds, as its numbers."""
    if not 1 <= line <= len(starts(text)):
        return [1]
    body, at = body_of(text, starts(text)[line - 1])
    if not body or body[0] not in MARKERS + DIGITS:
        return [2]
    sign = body.lstrip(DIGITS)
    digits = len(body) - len(sign)
    if digits > 9:
        return [3]
    if digits and (not sign or sign[0] not in DELIMITERS):
        return [4]
    if len(sign) < 2 or sign[1] not in BLANKS:
        return [5]
    # request 2: "the marker byte for marker items and the delimiter byte for numbered ones"
    place = at + digits
    for k, (start, end) in enumerate(regions):
        if start <= place < end:
            return [6, k, start, end]
    return [0]


def explained(text, numbers, count, line):
    """"Refusals: 1, 5 as for a work sheet"; no text here is too long."""
    regions = list(zip(numbers[::2], numbers[1::2]))
    if count > len(regions):
        return [0, 5]
    regions, low = regions[:count], 0
    for start, end in regions:
        if not low <= start < end <= len(text):
            return [0, 5]
        low = end
    return [1, *why(text, regions, line)]


class Sums:
    """The two sums of a block, and how many questions they hold."""

    def __init__(self):
        self.asked, self.first, self.second = 0, 0, 0

    def feed(self, numbers):
        for x in numbers:
            self.first = (self.first * 65599 + x + 1) % 4294967291
            self.second = (self.second * 69069 + x + 1) % 4294967279

    def question(self, text, line, answer):
        self.asked += 1
        self.feed([len(text), *text, line, *answer])


class Explainer:
    """Puts questions and their answers into a list."""

    def __init__(self, listing):
        self.listing = listing

    def built(self, text):
        """The regions that the Rust builds, as numbers."""
        words = [str(v) if isinstance(v, int) else commas(v) for v in HOUSE]
        flag, count, *numbers = self.listing.oracle.numbers('context_build', *words, hexed(text))
        assert flag == 1 and len(numbers) == 2 * count
        return numbers

    def given(self, text, numbers, count=None, lines=None):
        count = len(numbers) // 2 if count is None else count
        for line in range(len(text) + 2) if lines is None else lines:
            question = f'count {count}, regions {counted(numbers)}, text {counted(text)}, line {line}'
            self.listing.put('w', question, explained(text, numbers, count, line))

    def house(self, text):
        numbers, shown = self.built(text), []
        for line in range(len(starts(text)) + 2):
            answer = explained(text, numbers, len(numbers) // 2, line)
            self.listing.put('b', f'text {counted(text)}, line {line}', answer)
            shown += [line] * (answer == [1, 0])
        assert shown == self.sheet_lines(text, numbers), text

    def sheet_lines(self, text, numbers):
        """The lines that the sheet of the Rust's items has an item of."""
        words = sheet.R.words((*sheet.HOUSE, tuple(zip(numbers[::2], numbers[1::2]))))
        _, _, *items = self.listing.oracle.numbers(sheet.R.request, *words, hexed(text))
        return [sum(start < content for start in starts(text)) for content in items[::5]]

    def block(self, letter, shown, length, answer):
        sums = Sums()
        for letters in product(TELLING, repeat=length):
            text = bytes(letters[::-1])
            numbers, count = answer(text)
            for line in range(length + 2):
                sums.question(text, line, explained(text, numbers, count, line))
        question = f'{shown}bytes {counted(TELLING)}, length {length}'
        self.listing.put(letter, question, [sums.asked, sums.first, sums.second])


def make(listing):
    explainer = Explainer(listing)
    reasons(listing, explainer)
    refusals(listing, explainer)
    notes(listing, explainer)
    blocks(listing, explainer)


def reasons(listing, explainer):
    listing.comment('each reason, and the order in which they are tried')
    text = b'- a\n\n1a\n1234567890. b\n1.c\n\t2) d\n-x\n'
    explainer.given(text, [4, 5, 26, 31], lines=range(10))
    listing.comment('ten digits before no delimiter, and that before no blank; no blank before hidden')
    for text in (b'1234567890', b'1234567890x', b'123456789', b'1234567890 x', b'123456789.', b'123456789. ', b'000000000) a', b'0000000000) a'):
        explainer.given(text, [0, len(text)], lines=(1,))
        explainer.given(text, [], lines=(1,))
    listing.comment('hidden at a region\'s first place, and not at its end')
    for numbers in ([], [0, 1], [2, 3], [2, 4], [3, 4], [1, 2], [0, 2, 2, 3], [0, 1, 1, 2, 2, 4]):
        explainer.given(b'- ab', numbers, lines=(1,))
    listing.comment('lines: line 1 of an empty text, and no line behind a last line end')
    for text in (b'', b'\n', b'\n\n', b'- a\n', b'- a\n\n', b'- a\n- b', b'\n- b\n'):
        explainer.given(text, [])
    explainer.given(b'- a\n', [], lines=(4294967295,))


def refusals(listing, explainer):
    listing.comment('refusal 5 before every reason')
    text = b'1. a\n- b\n'
    for numbers in ([], [0], [0, 4], [0, 4, 3, 8], [5, 9, 0, 4], [2, 2], [4, 2], [0, 9], [0, 10], [0, 4, 4, 9], [0, 4, 5]):
        for count in sorted({0, len(numbers) // 2, len(numbers) // 2 + 1, 4294967295}):
            explainer.given(text, numbers, count, lines=(0, 1, 2, 3))


def notes(listing, explainer):
    listing.comment('notes, and the samples of the listing: every line by the list that is built')
    for text in (*spans.PAGES, *spans.NOTES, *spans.CODES, b'~~~\n5. a\n~~~\n> 6. b\n7. c\n- d', b'```\n- a\n', b'- a\n  * b\n\t+ c\n12) d\n',
                 b'<1. a\n- b\n\n- c>\n'):
        explainer.house(text)


def blocks(listing, explainer):
    listing.comment('blocks: every text to five bytes, by lists that are given and by the list that is built')
    for length in range(LONGEST + 1):
        for numbers in HANDMADE:
            shown = f'count {len(numbers) // 2}, regions {counted(numbers)}, '
            explainer.block('W', shown, length, lambda text, numbers=numbers: (numbers, len(numbers) // 2))
        explainer.block('B', '', length, lambda text: ((found := explainer.built(text)), len(found) // 2))
