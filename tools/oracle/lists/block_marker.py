"""Section 3: the marker scanner."""
from . import items

F, R, S = items.questions('marker')
MARKERS = tuple(b'-*+')
ALTERED = ((R, (*items.HOUSE, MARKERS)), (S, (3, 1, *items.HOUSE, (42, 43, 45), MARKERS)))

NUMBER, NAME = 3, 'block_marker'
ABOUT = f"""
BlockMarkerIter. Lines, blocks and sums are read as in section 1. An item is the marker byte, the start
and the end of its content.

{items.ABOUT.strip()}
"""

# dash, star, line end, blank, tab, a
TELLING = b'-*\n \ta'


def make(listing):
    fresh(listing)
    found(listing)
    scans(listing)
    positions(listing)
    blocks(listing)


def fresh(listing):
    listing.comment('fresh states: none to five accepted bytes, given in any order and twice')
    for accepted in (b'', b'-', b'-*', b'+-*', b'-*+a', b'a-*+b', b'--', b'-*-+', b'\0\xff', b'\xff\xfe\xfd\0', b'\n \t-'):
        for text in (b'', b'- a'):
            F.full(listing, (*items.HOUSE, tuple(accepted)), text)


def ask(listing, text, accepted=MARKERS, eol=10, sep=32, tab=9):
    R.full(listing, (eol, sep, tab, tuple(accepted)), text)


# Each set of the house markers with the same items by both scans: three bytes stream, four don't.
BOTH = MARKERS, tuple(b'-*+z')


def found(listing):
    listing.comment('optional separators and tabs, one accepted byte, one separator or tab; the rest of the line')
    for accepted in BOTH:
        for text in (b'', b'-', b'- ', b'-\t', b'- a', b'-a', b'- a\n', b'- \n', b'-\n', b' \t - a', b'a- b', b'- a\n* b\n+ c',
                     b'- - a', b'-- a', b'-a\n- b', b'x\n- a\n\n- b\n', b'- a\n-b\n- c', b' \n- a', b'- \t a ', b'-  a\r\n- b',
                     b'z a', b'> - a', b'\n\n- ', b'\t* \xff\0'):
            ask(listing, text, accepted)


def scans(listing):
    listing.comment('where the two scans differ: separator or tab = line end, accepted blanks, accepted line end')
    ask(listing, b'-\nb', sep=10)
    ask(listing, b'-\nb', b'-*+z', sep=10)
    ask(listing, b'-\nb', tab=10)
    ask(listing, b'-\nb', b'-*+z', tab=10)
    for accepted in (b' -', b' -*', b' -*+', b'\t-', b'\t-*+'):
        for text in (b' - ', b'- a', b'  a', b' \t-\ta', b'\t\t\n- '):
            ask(listing, text, accepted)
    for accepted in (b'\n', b'\n-', b'\n-*+'):
        for text in (b'\n ', b'\n a', b'a\n \n- b', b'\n\n \n', b'-\n a', b' \n b'):
            ask(listing, text, accepted)
    listing.comment('other bytes; all equal')
    ask(listing, b'\xff\1x\0\xff\2', b'\xff', eol=0, sep=1, tab=2)
    ask(listing, b'aaaa', b'a', eol=97, sep=97, tab=97)
    ask(listing, b'aaaa', b'abcd', eol=97, sep=97, tab=97)


def positions(listing):
    listing.comment('handmade states: a line scan takes its position for a line start, streaming looks back before it')
    for text in (b'x- b', b'- a\n* b', b' - a', b'a\n - b\n'):
        items.handmade(S, listing, items.HOUSE, MARKERS, text, ((97, 45, 45),))
    items.handmade(S, listing, (10, 10, 9), tuple(b'-'), b'-\nb')
    items.handmade(S, listing, items.HOUSE, tuple(b' -'), b' - a')
    items.handmade(S, listing, items.HOUSE, tuple(b'\n'), b'\n \n ')


# By turns: separator, tab, both = line end; separator = tab; accepted line end, separator, tab, all three; a
# letter for a line end; all equal; an accepted separator, line end.
COLLISIONS = (((10, 10, 9), b'-*'), ((10, 32, 10), b'-*'), ((10, 10, 10), b'-'), ((10, 32, 32), b'-*'), (items.HOUSE, b'\n-'),
              (items.HOUSE, b' -'), (items.HOUSE, b'\t-'), (items.HOUSE, b'\n \t'), ((97, 32, 9), b'-*'), ((45, 45, 45), b'-'),
              ((10, 45, 9), b'-*'), ((45, 32, 9), b'-*'))


def blocks(listing):
    sets = b'-*', b'-*+a', b'-', b'', b'*+-', b'*+-ab'
    items.blocks(R, S, listing, TELLING, sets, ((42, 45, 97), tuple(b'-*')), COLLISIONS)
    listing.comment('texts that are drawn')
    for seed, accepted in enumerate((b'-*+', b'-*+z', b'-'), 1):
        R.drawn(listing, (*items.HOUSE, tuple(accepted)), b'-*+\n\n \tab', 60, seed, 1000)
        R.drawn(listing, (*items.HOUSE, tuple(accepted)), b'-*+\n \tabcdefghijkl', 1000, seed, 40)
