"""Section 9: what `spans` prints."""
from .ask import Question

L = Question('l', 'listing', '')
ALTERED = ((L, ()),)

NUMBER, NAME = 9, 'listing'
ABOUT = """
What `spans` prints for a text, by the house grammar. Lines, blocks and sums are read as in section 1.

l  the whole output: text

The answer is 1 and the output as a list of bytes. R to N lines are the Rust's regions, spans and items; how
a line is laid out, and the W lines, are the page's (document 01, and of which items are hidden document 02,
request 2).
"""

# line end, blank, tilde, backtick, greater, dash, one, dot
TELLING = b'\n ~`>-1.'


# The page's example, and its marked ones
PAGES = b'', b'~~~', b'~~', b'a `b` c', b'\\`a`', b'<a\nb>', b'123456789. x', b'1234567890. x', b'> > a'
# Nested quotes, tabs, empty content, hidden items, no last line end, bytes 0 and 255
NOTES = (b'>>>\n> a\n', b'>\t> a', b'>>>>>>>>>> a', b'- ', b'1.\t', b'\t- a\n', b'`- a`', b'- `a`', b'<\n1. a>', b'- a\n- b',
         b'~~~\n- a\n~~~\n- b', b'```\n1. a\n~~~', b'\0\xff', b'- \0\n1. \xff', b'0) a\n', b'007. a', b'> 1. a\n1. b')
# Content that begins with a region, and empty content at the text's end in a fence that nothing closes
CODES = b'1. `K7` set', b'1. `K7` set\n- <a\n2. b>\n', b'- <a> b\n* `c\n3) d`\n', b'~~~\n- ', b'```\n1. a\n2)\t'


def make(listing):
    pages(listing)
    items(listing)
    limits(listing)
    blocks(listing)


def ask(listing, text):
    L.full(listing, (), text)


def pages(listing):
    listing.comment('the page\'s example, and its marked ones')
    for text in PAGES:
        ask(listing, text)


def items(listing):
    listing.comment('nested quotes, tabs, empty content, hidden items, no last line end, bytes 0 and 255')
    for text in NOTES:
        ask(listing, text)
    listing.comment('content that begins with a region, and empty content at the text\'s end in a fence that nothing closes')
    for text in CODES:
        ask(listing, text)


def limits(listing):
    listing.comment('8,192 bytes are listed, 8,193 are not')
    for last in (8185, 8186, 8187, 8188):
        L.long(listing, (), ((45, 1), (32, 1), (97, last), (10, 1), (49, 1), (46, 1), (32, 1)))
    for length in (8191, 8192, 8193):
        L.long(listing, (), ((97, length),))
        L.long(listing, (), ((62, length),))
        L.long(listing, (), ((126, 3), (10, 1), (255, length - 4)))


def blocks(listing):
    listing.comment('blocks: every text to four bytes')
    L.blocks(listing, (), TELLING, 4)
    listing.comment('notes that are drawn')
    for seed, length in enumerate((20, 60, 120, 250, 500, 1000), 1):
        L.drawn(listing, (), b'\n\n\n  --*1239..)>>~``<abcdefg\\', length, seed, 200)
        L.drawn(listing, (), b'\n\n>  - 1.~~~`a\t\0\xff', length, seed, 100)
    listing.comment('and up to the limit')
    for length in (4000, 8191, 8192, 8193):
        L.drawn(listing, (), b'\n\n  -*19.)>~`<>abcdefghijklmnopqrstuvwxyz', length, length, 4)
