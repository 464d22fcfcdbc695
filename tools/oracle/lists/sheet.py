"""Section 8: the work sheet."""
from .ask import Question

PARAMETERS, ORDER = 'eol sep tab markers delimiters regions', 'regions eol sep tab markers delimiters'
R = Question('r', 'sheet', PARAMETERS, order=ORDER)

HOUSE = 10, 32, 9, tuple(b'-*+'), tuple(b'.)')
ALTERED = ((R, (*HOUSE, ((1, 2),))),)

NUMBER, NAME = 8, 'sheet'
ABOUT = """
The work sheet. Lines, blocks and sums are read as in section 1.

r  the sheet of a text: line end, separator, tab; the marker bytes; the delimiter bytes; the regions, two
   numbers each; text

The answer is 1, how many items there are, and five numbers of each: start, end, kind (0 marker, 1 numbered),
accepted byte, number. The items are the Rust's; the order is the page's (document 01), and so is that those are
left out whose marker or delimiter is inside a region (document 02, request 2).
"""

# one, dot, dash, line end, blank
TELLING = b'1.-\n '


def make(listing):
    hidden(listing)
    ties(listing)
    blocks(listing)


def ask(listing, text, regions=(), markers=b'-*+', delimiters=b'.)', eol=10, sep=32, tab=9):
    R.full(listing, (eol, sep, tab, tuple(markers), tuple(delimiters), regions), text)


def hidden(listing):
    listing.comment('an item is hidden where its marker or delimiter is inside a region: not its digits, blank or content')
    text = b'1. a\n- b\n2. c\n'
    for regions in ((), ((0, 14),), ((3, 4),), ((4, 7),), ((4, 8),), ((7, 8),), ((8, 9),), ((0, 3),), ((0, 4), (7, 8)),
                    ((2, 3), (3, 4), (4, 5)), ((12, 13),), ((11, 12),), ((3, 4), (7, 8), (12, 13)),
                    ((0, 1),), ((1, 2),), ((0, 1), (2, 5)), ((5, 6),), ((4, 5), (6, 9)), ((9, 10),), ((10, 11),),
                    ((1, 2), (5, 6), (10, 11)), ((0, 1), (2, 5), (6, 10), (11, 14))):
        ask(listing, text, regions)
    listing.comment('empty content; no last line end; the text\'s end')
    for text in (b'', b'- ', b'1. ', b'- \n', b'- a', b'1. a', b'-', b'1.'):
        ask(listing, text)
    ask(listing, b'- ', ((0, 2),))
    ask(listing, b'- ', ((1, 2),))
    ask(listing, b'- ', ((0, 1),))
    ask(listing, b'- \n', ((2, 3),))
    listing.comment('markers and numbers by rising content start')
    ask(listing, b'- a\n1. b\n* c\n2) d\n+ e\n3. f')
    ask(listing, b'9. a\n8. b\n- c\n- d\n7. e')


def ties(listing):
    listing.comment('both items of a line; the marker item first where both contents start at one place')
    ask(listing, b'1. a', markers=b'.1', delimiters=b'.')
    ask(listing, b'1  a', markers=b'1', delimiters=b' ')
    ask(listing, b'1 \n a', markers=b'1', delimiters=b' ', tab=10)
    ask(listing, b'- a\n1- b', markers=b'-', delimiters=b'-')
    ask(listing, b' 1- a', markers=b' -', delimiters=b'-')
    ask(listing, b'1\n a', markers=b'\n', delimiters=b'\n')
    ask(listing, b'1\n a\n2\n b', markers=b'\n', delimiters=b'\n')
    ask(listing, b'1\n a\n2\n b', ((0, 4),), markers=b'\n', delimiters=b'\n')
    listing.comment('more than three accepted bytes: line by line')
    ask(listing, b'- a\n1. b\n', markers=b'-*+z', delimiters=b'.):;')
    ask(listing, b'1\n a', markers=b'\nxyz', delimiters=b'\nxyz')


def blocks(listing):
    listing.comment('blocks: every text to six bytes, with no region and with some')
    R.blocks(listing, (*HOUSE, ()), TELLING, 6)
    for regions in (((0, 3),), ((1, 2), (2, 4)), ((2, 3), (4, 5)), ((3, 5),)):
        R.block(listing, (*HOUSE, regions), TELLING, 5)
        R.block(listing, (*HOUSE, regions), TELLING, 6)
    listing.comment('accepted bytes that collide')
    for markers, delimiters in ((b'1', b'1'), (b'1.', b'.'), (b'\n', b'\n'), (b' ', b' '), (b'-', b'-'), (b'-xyz', b'-xyz'),
                                (b'\n', b'\nxyz'), (b'', b'.'), (b'-', b'')):
        R.blocks(listing, (10, 32, 9, tuple(markers), tuple(delimiters), ()), TELLING, 5)
        R.block(listing, (10, 32, 9, tuple(markers), tuple(delimiters), ((1, 3),)), TELLING, 5)
    listing.comment('other grammars')
    for eol, sep, tab in ((10, 10, 9), (10, 32, 10), (32, 32, 9), (49, 32, 9), (45, 45, 45)):
        R.blocks(listing, (eol, sep, tab, tuple(b'-'), tuple(b'.'), ()), TELLING, 5)
    listing.comment('texts that are drawn')
    for seed in (1, 2, 3):
        R.drawn(listing, (*HOUSE, ((10, 30), (31, 33), (100, 150))), b'12.-*\n\n  ab', 300, seed, 100)
