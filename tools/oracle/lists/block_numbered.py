"""Section 4: the scanner of numbered items."""
from . import items

F, R, S = items.questions('numbered')
DELIMITERS = tuple(b'.)')
ALTERED = ((R, (*items.HOUSE, DELIMITERS)), (S, (2, 1, *items.HOUSE, (41, 46, 0), DELIMITERS)))

NUMBER, NAME = 4, 'block_numbered'
ABOUT = f"""
BlockNumberedIter. Lines, blocks and sums are read as in section 1. An item is its number, the delimiter
byte, the start and the end of its content.

{items.ABOUT.strip()}
"""

# one, dot, line end, blank, nine, a
TELLING = b'1.\n 9a'
# The same scanned line by line: more than three accepted bytes.
LINED = tuple(b'.)xyz')


def make(listing):
    fresh(listing)
    found(listing)
    scans(listing)
    digits(listing)
    positions(listing)
    blocks(listing)


def fresh(listing):
    listing.comment('fresh states: none to five accepted bytes, given in any order and twice')
    for accepted in (b'', b'.', b').', b':.)', b'.):a', b'a.):b', b'..', b'\0\xff', b'\xff\xfe\xfd\0', b'\n \t.'):
        for text in (b'', b'1. a'):
            F.full(listing, (*items.HOUSE, tuple(accepted)), text)


def ask(listing, text, accepted=DELIMITERS, eol=10, sep=32, tab=9):
    R.full(listing, (eol, sep, tab, tuple(accepted)), text)


def found(listing):
    listing.comment('optional separators and tabs, digits, one accepted byte, one separator or tab; the rest of the line')
    for accepted in (DELIMITERS, LINED):
        for text in (b'', b'1', b'1.', b'1. ', b'1.\t', b'1. a', b'1.a', b'1) a\n', b'1.\n', b'1. \n', b' \t 12. a', b'a1. b',
                     b'. a', b'1. a\n2) b\n3. c', b'1.. a', b'1.2. a', b'1.a 2. b', b'1.a\n2. b', b'1 . a', b'1 2. a',
                     b'0. a', b'007. a', b'-1. a', b'1. 2. a', b'> 1. a', b'x\n1. a\n\n2. b\n', b'\t9) \xff\0'):
            ask(listing, text, accepted)


def scans(listing):
    listing.comment('where the two scans differ: line end = separator or tab, line end a digit, accepted blanks and digits')
    for accepted in (b'.', b'.xyz'):
        ask(listing, b'1.\nb', accepted, sep=10)
        ask(listing, b'1.\nb', accepted, tab=10)
        ask(listing, b'1. ', accepted, eol=49)
        ask(listing, b'2. 11. a', accepted, eol=49)
        ask(listing, b'11. a', accepted, sep=49)
        ask(listing, b'1.1a', accepted, tab=49)
    for accepted in (b' ', b' .', b' .xy', b'\t.', b'\t.xy'):
        for text in (b'1  a', b' 1  a', b'1. a', b'1 . a', b'1\t a'):
            ask(listing, text, accepted)
    for accepted in (b'\n', b'\n.', b'\n.xy'):
        for text in (b'1\n ', b'1\n a', b'\n 1. a', b'1\n\n2. a'):
            ask(listing, text, accepted)
    listing.comment('an accepted digit: the tenth digit may itself be the delimiter')
    for accepted in (b'1', b'19', b'1xyz', b'0123456789'):
        for text in (b'11 a', b'1 a', b'91 a', b'1234567891 a', b'12345678911 a', b'999999999\x31 a', b'111 111 a', b'9\n11 a'):
            ask(listing, text, accepted)


def digits(listing):
    listing.comment('one to nine digits: numbers of eight to eleven')
    for accepted in (DELIMITERS, LINED):
        for length in range(1, 13):
            for digit in (b'0', b'1', b'9'):
                for before in (b'', b' ', b'a\n'):
                    ask(listing, before + digit * length + b'. a', accepted)
        for text in (b'1234567890. a', b'0000000001. a', b'123456789. a', b'999999999. a\n1000000000. b\n7. c', b'00000000000. a'):
            ask(listing, text, accepted)


def positions(listing):
    listing.comment('handmade states: a line scan takes its position for a line start, streaming looks back before it')
    for text in (b'12. x', b'1. a\n2) b', b' 1. a', b'a\n 1. b\n'):
        items.handmade(S, listing, items.HOUSE, DELIMITERS, text, ((97, 46, 46),))
    items.handmade(S, listing, (10, 10, 9), tuple(b'.'), b'1.\nb')
    items.handmade(S, listing, items.HOUSE, tuple(b' .'), b'1  a')
    items.handmade(S, listing, items.HOUSE, tuple(b'1'), b'111 a')
    items.handmade(S, listing, (49, 32, 9), tuple(b'.'), b'1. 1. a')


# By turns: separator, tab, both = line end; separator = tab; accepted line end, separator, tab, digit, all of
# them; a digit for a line end, for a separator, for both; an accepted line end; all equal; an accepted separator.
COLLISIONS = (((10, 10, 9), b'.'), ((10, 32, 10), b'.'), ((10, 10, 10), b'.'), ((10, 32, 32), b'.'), (items.HOUSE, b'\n.'),
              (items.HOUSE, b' .'), (items.HOUSE, b'\t.'), (items.HOUSE, b'1.'), (items.HOUSE, b'\n 1'), ((49, 32, 9), b'.'),
              ((10, 49, 9), b'.'), ((49, 49, 9), b'.'), ((46, 32, 9), b'.'), ((49, 49, 49), b'1'), ((10, 46, 9), b'.'))


def blocks(listing):
    sets = b'.', b'.)xyz', b'', b'.a', b'.a)', b'.a)x'
    items.blocks(R, S, listing, TELLING, sets, ((97, 46, 41), tuple(b'.a')), COLLISIONS)
    listing.comment('texts that are drawn')
    for seed, accepted in enumerate((b'.)', b'.)xyz', b'.'), 1):
        R.drawn(listing, (*items.HOUSE, tuple(accepted)), b'1234.)\n\n \ta', 60, seed, 1000)
        R.drawn(listing, (*items.HOUSE, tuple(accepted)), b'0123456789..\n\n  ab', 1000, seed, 40)
