"""Section 2: the fence scanner."""
from .ask import Question

FENCE = 'byte min eol sep tab'
F = Question('f', 'fence_new', FENCE)
R = Question('r', 'fence_run', FENCE)
S = Question('s', 'fence_step', FENCE, 'pos')

HOUSE = 126, 3, 10, 32, 9
ALTERED = ((R, (126, 1, 10, 32, 9)), (S, (126, 1, 10, 32, 9)))

NUMBER, NAME = 2, 'fence'
ABOUT = """
FenceIter. Lines, blocks and sums are read as in section 1.

f  a fresh state: fence byte, minimum, line end, separator, tab; text
r  all spans that a fresh state yields: as f
s  one step: as f; the position

A state is fence byte, minimum, line end, separator, tab, position. The answer to f is 1 and the state;
to r 1, how many spans there are, and the start and the end of each; to s 1 and a span, or 2 for None,
and then the state after the step, or 0 where the Rust panicked. S asks at positions from 0 to n + 1.
"""

# a, line end, tilde, blank, tab
TELLING = b'a\n~ \t'


def make(listing):
    fresh(listing)
    spans(listing)
    positions(listing)
    runs(listing)
    blocks(listing)


def fresh(listing):
    listing.comment('fresh states')
    for fence in (HOUSE, (0, 255, 1, 2, 3), (10, 0, 10, 10, 10)):
        for text in (b'', b'~~~'):
            F.full(listing, fence, text)


def spans(listing):
    def ask(text, least=3, byte=126, eol=10, sep=32, tab=9):
        R.full(listing, (byte, least, eol, sep, tab), text)

    listing.comment('the minimum, and a run of at least 1')
    ask(b'')
    ask(b'~~~')
    ask(b'~~')
    ask(b'~', 1)
    ask(b'~', 0)
    ask(b'a', 0)
    ask(b'~~~~', 255)
    listing.comment('the span ends after the closing line\'s line end, or at the text\'s end')
    ask(b'~~~~\n~~~\n~~~~ \n')
    ask(b'~~~\na\n~~~\nb')
    ask(b'~~~\na\n~~~')
    ask(b'~~~\na\n')
    ask(b'~~~\n~~~\n~~~\n~~~\n~~~\n')
    listing.comment('a fence begins its line and has no further fence byte on it')
    ask(b'a~~~\n~~~')
    ask(b' ~~~\n~~~')
    ask(b'~~~ a~\n~~~')
    ask(b'~~~ a\n~~~')
    ask(b'~ ~\n~', 1)
    listing.comment('it is closed by a run as long or longer whose rest is separators or tabs')
    ask(b'~~~~\n~~~\n~~~~~\na')
    ask(b'~~~\n~~~ \t \na')
    ask(b'~~~\n~~~ a\n~~~\na')
    ask(b'~~~\n ~~~\n~~~\na')
    ask(b'~~~\na~~~\n~~~\na')
    ask(b'~~\n~~ ~\n~~\n~~', 2)
    listing.comment('a fence byte that is the line end: the run is counted on across lines')
    for least in (0, 1, 2, 3):
        ask(b'a\n\n\n', least, byte=10)
    ask(b'\n\n\n\na\n\nb\n', 2, byte=10)
    ask(b'\n\n a\n\n\n', 1, byte=10)
    listing.comment('equal bytes: separator or tab and line end, fence and separator or tab, all')
    ask(b'~\n~ \n~\na', 1, sep=10, tab=9)
    ask(b'~\n~ \n~\na', 1, tab=10)
    ask(b'~\n~ \n~\na', 2, sep=126)
    ask(b'~~\n~ ~\n~~\na', 1, tab=126)
    ask(b'~ ~ a', 1, eol=32)
    ask(b'aaba', 1, byte=97, eol=97, sep=97, tab=97)
    ask(b'\xff\xff\0\xff\xff\1\0\2', 2, byte=255, eol=0, sep=1, tab=1)


def positions(listing):
    def ask(text, *places, least=3, byte=126):
        S.full(listing, (byte, least, 10, 32, 9), text, *places)

    listing.comment('where nothing is left the position stays behind the last fence byte, or where it was')
    ask(b'a~bcd', 0, 1, 2, 3, 4, 5, 6)
    ask(b'abc', 0, 1, 2, 3, 4, 4294967295)
    ask(b'', 0, 1, 2)
    listing.comment('a position is no line start by itself: the byte before is looked at')
    ask(b'~~~~\na', 0, 1, 2, 5, least=1)
    ask(b'a~~\n~~\n', *range(9), least=1)
    ask(b'~~~\na\n~~~\n~~~', *range(15))
    listing.comment('a fence that doesn\'t open rules its line out')
    ask(b'~~\n~~~\n', *range(8))
    ask(b'~a~\n~\n~', *range(9), least=1)
    listing.comment('a fence byte that is the line end')
    ask(b'a\n\n\n', *range(6), least=2, byte=10)


def runs(listing):
    """Runs about 255, where the count stops while the run is eaten whole."""
    listing.comment('runs: a count stops at 255')
    lengths = 253, 254, 255, 256, 257
    for least in (0, 3, 255):
        for first in lengths:
            for second in lengths:
                R.long(listing, (126, least, 10, 32, 9), ((126, first), (10, 1), (126, second), (10, 1), (97, 1)))
    for first in (2, 255, 256, 600):
        lines = (126, first), (10, 1), (126, 254), (10, 1), (126, 255), (32, 2), (10, 1), (126, 1)
        R.long(listing, HOUSE, lines)
        S.long(listing, HOUSE, lines, 0, 1, first, first + 1, first + 2, first + 256, first + 512)
    for length in lengths:
        for least in (0, 3, 255):
            R.long(listing, (10, least, 10, 32, 9), ((97, 1), (10, length), (97, 1), (10, length)))


def blocks(listing):
    listing.comment('blocks: every text to five bytes, six with minimum 1')
    for least in (0, 1, 2, 3):
        R.blocks(listing, (126, least, 10, 32, 9), TELLING, 6 if least == 1 else 5)
        S.blocks(listing, (126, least, 10, 32, 9), TELLING, 6 if least == 1 else 5)
    listing.comment('equal bytes, every text to four bytes')
    # By turns: fence = line end; separator = line end; tab = line end; fence = separator; fence = tab;
    # both; separator = tab; line end = separator = tab; fence = line end = separator; all; a blank for
    # a line end, a letter for a fence.
    for byte, eol, sep, tab in ((10, 10, 32, 9), (126, 10, 10, 9), (126, 10, 32, 10), (126, 10, 126, 9),
                                (126, 10, 32, 126), (126, 10, 126, 126), (126, 10, 32, 32), (126, 10, 10, 10),
                                (10, 10, 10, 9), (10, 10, 32, 10), (10, 10, 10, 10), (97, 32, 10, 126)):
        for least in (0, 1, 2, 255):
            R.blocks(listing, (byte, least, eol, sep, tab), TELLING, 4)
            S.blocks(listing, (byte, least, eol, sep, tab), TELLING, 4)
    listing.comment('texts that are drawn')
    for least in (1, 2, 3):
        R.drawn(listing, (126, least, 10, 32, 9), b'\n~~ a', 40, 2000 + least, 2000)
        R.drawn(listing, (126, least, 10, 32, 9), b'\n~~~~~~ \tabcdefghijk', 1000, least, 40)
        R.drawn(listing, (10, least, 10, 32, 9), b'\n~ a', 200, least, 200)
