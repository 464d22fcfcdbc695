"""Section 5: continuation frames."""
from .ask import Question

FRESH, FRESH_ORDER = 'nest byte eol sep tab', 'byte eol sep tab nest'
STEP = 'cap held waiting drained byte eol sep tab open pending'
STEP_ORDER = 'byte eol sep tab cap held open waiting drained pending'
F = Question('f', 'cont_new', FRESH, order=FRESH_ORDER)
R = Question('r', 'cont_run', FRESH, order=FRESH_ORDER)
S = Question('s', 'cont_step', STEP, 'pos', order=STEP_ORDER)

HOUSE = 62, 10, 32, 9
ALTERED = ((R, (8, *HOUSE)), (S, (8, 1, 0, 0, *HOUSE, (5,), ())))

NUMBER, NAME = 5, 'cont'
ABOUT = """
ContIter. Lines, blocks and sums are read as in section 1.

f  a fresh state: nest; marker byte, line end, separator, tab; text
r  all frames that a fresh state yields: as f
s  one step of a handmade state: cap, open count, pending count, pending index; marker byte, line end,
   separator, tab; the open cells; the pending cells, two numbers each; text; the position. Cells that
   aren't given are 0.

A state is marker byte, line end, separator, tab, cap, open count, the open cells as a list, pending count,
pending index, the pending cells as a list (how many cells, then two numbers each), the position. A list
of cells goes up to the last that isn't 0.
The answer to f is 1 and the state; to r 1, how many frames there are, and the start and the end of each; to
s 1 and a frame, or 2 for None, and then the state after the step. S asks at positions from 0 to n.
"""

# greater, line end, blank, a
TELLING = b'>\n a'
NESTS = 0, 1, 2, 8, 31, 32, 33, 4294967295


def make(listing):
    fresh(listing)
    frames(listing)
    deep(listing)
    handmade(listing)
    blocks(listing)


def fresh(listing):
    listing.comment('fresh states: nest over 32 acts as 32')
    for nest in NESTS:
        for text in (b'', b'> a'):
            F.full(listing, (nest, *HOUSE), text)
    F.full(listing, (3, 255, 0, 1, 2), b'')


def ask(listing, text, nest=8, byte=62, eol=10, sep=32, tab=9):
    R.full(listing, (nest, byte, eol, sep, tab), text)


def frames(listing):
    listing.comment('a frame from its marker to the start of the first line of smaller depth, or to the text\'s end')
    for text in (b'', b'>', b'> a', b'>a\n', b'> a\nb', b'> a\n> b\n', b'a\n> b\nc\n> d', b'>> a', b'> > a\n> b\nc', b'>>>\n>\n>>\n',
                 b'a > b', b' > a', b'\n>\n\n>', b'> \n>', b'>  > a', b'>\t>\ta', b'> a\n\n> b'):
        for nest in (0, 1, 2, 8):
            ask(listing, text, nest)
    listing.comment('frames that close together come innermost first')
    ask(listing, b'>>>>\na')
    ask(listing, b'>>>>\n>>\na')
    ask(listing, b'>>\n>>>>\n>')
    listing.comment('one separator or tab is taken behind a marker, no second')
    for text in (b'> > > a', b'>  > a', b'> \t> a', b'>\t> a', b'> >\n>>'):
        ask(listing, text)
    listing.comment('equal bytes')
    for byte, eol, sep, tab in ((10, 10, 32, 9), (62, 10, 10, 9), (62, 10, 62, 9), (62, 10, 32, 62), (62, 10, 32, 32),
                                (62, 62, 62, 62), (10, 10, 10, 10), (62, 32, 32, 9)):
        for text in (b'>>\n> \n', b'\n\n>', b'> > a\n>', b'>\n>\n> >'):
            ask(listing, text, 8, byte, eol, sep, tab)
    ask(listing, b'\xff\1\xff\0\xff', 8, 255, 0, 1, 2)


def deep(listing):
    listing.comment('lines of 30 to 35 markers')
    for nest in NESTS:
        for length in range(30, 36):
            R.long(listing, (nest, *HOUSE), ((62, length), (10, 1), (62, 2), (10, 1)))
    for length in range(30, 36):
        R.long(listing, (32, *HOUSE), ((62, length), (10, 1), (62, length - 1), (10, 1), (62, length + 1)))
        for cap in (31, 32):
            S.long(listing, (cap, 0, 0, 0, *HOUSE, (), ()), ((62, length),), 0)


def handmade(listing):
    texts = b'>> a\n>b', b'a\n>>>\n> b', b'> > a'

    def step(cap, held, waiting, drained, open_cells, pending, text, *places):
        S.full(listing, (cap, held, waiting, drained, *HOUSE, open_cells, pending), text, *places)

    listing.comment('open frames above the cap still peel; with frames open a position counts as a line start')
    for text in texts:
        for cap, held in ((0, 1), (1, 2), (1, 3), (2, 2), (8, 0), (8, 1), (8, 3), (32, 5)):
            step(cap, held, 0, 0, (7, 5, 3, 9, 1), (), text, *range(len(text) + 1))
    listing.comment('pending frames go first, half drained, reversed ones as they are; stale cells stay')
    for drained in range(4):
        step(8, 1, 3, drained, (2,), ((5, 1), (0, 9), (4, 4)), b'>> a\n>b', 0, 3, 5, 7)
    step(8, 2, 2, 0, (0, 1, 9), ((9, 2), (8, 3), (7, 7)), b'a', 0, 1)
    step(8, 2, 2, 2, (0, 1, 9), ((9, 2), (8, 3), (7, 7)), b'a', 0, 1)
    step(8, 3, 1, 1, (9, 9, 9, 4), ((1, 1), (2, 2), (3, 3), (4, 4)), b'>\n>>\na', 0, 1, 2, 5, 6)
    listing.comment('starts past the end: frames come out reversed')
    step(8, 2, 0, 0, (4294967295, 100), (), b'a\n> b', 0, 2, 5)
    listing.comment('the cells of fresh states, stepped to the end')
    for text in (b'>>> a\n> b\nc', b'>>\n>', b'a\n> b\n\n>>> c\n>'):
        stepped(listing, text)


def stepped(listing, text):
    """All steps of a fresh state, each asked with the state that the last one left."""
    values, place, found = (8, 0, 0, 0, *HOUSE, (), ()), 0, 1
    while found == 1:
        S.full(listing, values, text, place)
        found, *rest = listing.oracle.numbers(S.request, *S.words(values), text.hex() or '-', place)
        byte, eol, sep, tab, cap, held, *rest = rest[2 if found == 1 else 0:]
        size, *rest = rest
        open_cells, rest = tuple(rest[:size]), rest[size:]
        waiting, drained, size, *rest = rest
        flat, (place,) = rest[:size * 2], rest[size * 2:]
        pending = tuple(zip(flat[::2], flat[1::2], strict=True))
        values = cap, held, waiting, drained, byte, eol, sep, tab, open_cells, pending


def partitions():
    """Every choice of equal bytes among four, each byte being one of the telling ones."""
    def grow(chosen):
        if len(chosen) == 4:
            yield tuple(chosen)
            return
        for byte in dict.fromkeys((*chosen, next(b for b in (62, 10, 32, 9) if b not in chosen))):
            yield from grow([*chosen, byte])

    yield from grow([])


def blocks(listing):
    listing.comment('blocks: every text to six bytes')
    for nest in NESTS:
        R.blocks(listing, (nest, *HOUSE), TELLING, 6)
    listing.comment('every choice of equal bytes, every text to six bytes')
    for grammar in partitions():
        R.blocks(listing, (8, *grammar), TELLING, 6)
        R.blocks(listing, (1, *grammar), TELLING, 5)
    listing.comment('handmade states at every position, every text to five bytes')
    for cap, held, waiting, drained in ((8, 0, 0, 0), (8, 1, 0, 0), (8, 2, 0, 0), (1, 2, 0, 0), (0, 1, 0, 0), (8, 2, 2, 2),
                                        (8, 2, 2, 1), (8, 3, 3, 0)):
        S.blocks(listing, (cap, held, waiting, drained, *HOUSE, (7, 3, 1), ((5, 1), (6, 6), (2, 3))), TELLING, 5)
    for grammar in partitions():
        S.blocks(listing, (8, 1, 0, 0, *grammar, (4, 9), ((3, 4),)), TELLING, 4)
    listing.comment('texts that are drawn')
    for seed, nest in enumerate((1, 2, 8, 32), 1):
        R.drawn(listing, (nest, *HOUSE), b'>>>>\n \ta', 100, seed, 500)
        R.drawn(listing, (nest, *HOUSE), b'>>>>>>>>\n  ab', 1200, seed, 30)
