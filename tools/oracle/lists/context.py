"""Section 6: regions, and the bytes that are searched for."""
from .ask import Question

GRAMMAR = 'eol escape sep tab fences symmetric asymmetric'
R = Question('r', 'context_build', GRAMMAR)
D = Question('d', 'context_build', GRAMMAR)
N = Question('n', 'context_causes', GRAMMAR)
C = Question('c', 'context_into', 'cells ' + GRAMMAR)
B = Question('b', 'build_needles', GRAMMAR, order='fences symmetric asymmetric', lone=True)

HOUSE = 10, 92, 32, 9, ((96, 3), (126, 3)), ((96, 1),), ((60, 62, 1),)
# The house rules with shorter fences.
SHORT = 10, 92, 32, 9, ((96, 2), (126, 1)), ((96, 1),), ((60, 62, 1),)
ALTERED = ((R, SHORT), (N, SHORT), (C, (6, *SHORT)))

NUMBER, NAME = 6, 'context'
ABOUT = """
Regions. Lines, blocks and sums are read as in section 1.

r  all regions that ParseContext::build records: line end, escape, separator, tab; fence bytes; their
   minimums; symmetric bytes; their counts; asymmetric openers; their closers; their counts; text
d  the same, the fence rules being records: as r, sixteen rules at the most
n  the same regions one by one, each with what made it: as r
c  the same written into a list: how many cells it has, then as r
b  the bytes that are searched for (build_needles): as r; the text plays no part

The answer to r and d is 1, how many regions there are, and the start and the end of each; to n likewise, each
region followed by 0, 1 or 2 for a fence, a symmetric or an asymmetric rule, the rule's index among
those of its kind, and 1, or 0 for a fence that no line closed. The Rust doesn't keep these three: they
are what its own tests say of the region's start (fence_opens, rule_for) and of the last line
(fence_closes).
The answer to c is 1, the count, 0, and all cells, which held 1000 and how many were still to come.
Where there isn't room for all regions, half the cells rounded down, it is 1, 0, 3 and the cells as they
were: this rule is the page's.
The answer to b is 1, the count, and the eleven cells of the buffer as a list.
"""

# line end, backslash, blank, tab, backtick, tilde, less, greater, dash, one, dot
TELLING = b'\n\\ \t`~<>-1.'
# a, line end, backtick, tilde, less, greater
FEW = b'a\n`~<>'


def make(listing):
    pages(listing)
    building(listing)
    collisions(listing)
    runs(listing)
    cells(listing)
    search_bytes(listing)
    blocks(listing)


def both(listing, text, fences=((126, 1),), symmetric=((96, 1),), asymmetric=((60, 62, 1),), eol=10, escape=92,
         sep=32, tab=9):
    values = eol, escape, sep, tab, fences, symmetric, asymmetric
    R.full(listing, values, text)
    D.full(listing, values, text)
    N.full(listing, values, text)


def pages(listing):
    listing.comment('the page\'s marked examples, by the house rules')
    for text in (b'', b'~~~', b'~~', b'a `b` c', b'\\`a`', b'<a\nb>', b'<a\n\nb>', b'<a\n~~~\nb>\n',
                 b'~~~~\n~~~\n~~~~ \n', b'`a`\n\n~~~\nb\n~~~\n\n<c>', b'`a`\n\n<c>', b'`a`\n\n~~~', b'~~~\n\n<c>',
                 b'~~~\n\n~~~\n', b'~~~\n5. a\n~~~\n> 6. b\n7. c\n- d\n'):
        R.full(listing, HOUSE, text)
        N.full(listing, HOUSE, text)


def building(listing):
    listing.comment('an escape takes one byte off a run, and what is left is judged as a run of its own')
    both(listing, b'`\\``')
    both(listing, b'\\``a`')
    both(listing, b'`a\\`b`')
    both(listing, b'\\\\`a`')
    both(listing, b'`a\\\\`')
    both(listing, b'<a\\>b>')
    both(listing, b'\\<a>')
    listing.comment('after a fence the scan resumes past the closing line\'s line end')
    both(listing, b'~\n~\n>', symmetric=(), asymmetric=((10, 62, 1),))
    both(listing, b'~\na\n~\n~\nb\n~')
    both(listing, b'~\na\n~<b>')
    both(listing, b'~~\n~\n~~~ \t\n<b>')
    both(listing, b'~\n~\n\n~')
    listing.comment('single line ends are crossed; an empty line or one that opens a fence ends the paragraph')
    both(listing, b'<a\nb\nc>')
    both(listing, b'<a\n \nb>')
    both(listing, b'<a\n\nb>')
    both(listing, b'<a\n~\nb>')
    both(listing, b'<a\n~b~\nc>')
    both(listing, b'`a\n~~\nb`', fences=((126, 3),))
    both(listing, b'<a\n')
    listing.comment('runs are exactly the count; after a failure the scan resumes past the opening run')
    both(listing, b'``a`b``c`')
    both(listing, b'``a``', symmetric=((96, 2),))
    both(listing, b'```a``b```', symmetric=((96, 3),))
    both(listing, b'<<a>')
    both(listing, b'<<a>', asymmetric=((60, 62, 2),))
    both(listing, b'<<<a>', asymmetric=((60, 62, 2),))
    both(listing, b'`<a`>')
    both(listing, b'<`a>`')
    listing.comment('regions may touch')
    both(listing, b'<a><b>')
    both(listing, b'`a``b`')
    both(listing, b'<>``', symmetric=((96, 2),))
    listing.comment('the first rule with a byte decides alone, also where it ends a paragraph')
    both(listing, b'~', fences=((126, 3), (126, 1)))
    both(listing, b'<a\n~\n>', fences=((126, 3), (126, 1)))
    both(listing, b'<a\n~\n>', fences=((126, 1), (126, 3)))
    both(listing, b'<<a>', symmetric=((60, 1),), asymmetric=((60, 62, 2),))
    both(listing, b'<a> <', symmetric=((60, 1),), asymmetric=((60, 62, 1),))
    both(listing, b'`a` ``b``', symmetric=((96, 2), (96, 1)))
    both(listing, b'<a> <b-', asymmetric=((60, 45, 1), (60, 62, 1)))
    listing.comment('a fence that fails falls to the inline rule; a fence goes before one')
    both(listing, b'`a`', fences=((96, 3),))
    both(listing, b'`\n`', fences=((96, 1),))
    both(listing, b'a`\n`', fences=((96, 1),))
    both(listing, b' ~~~', fences=((126, 3),))


def collisions(listing):
    listing.comment('escape = line end: a fence is tried before the escape')
    both(listing, b'\n~', escape=10)
    both(listing, b'\n<a>', escape=10)
    both(listing, b'<a\n>b>', escape=10)
    listing.comment('a rule\'s byte = line end: a fence, a symmetric rule, an opener, a closer')
    both(listing, b'\n\n~', fences=((10, 1), (126, 1)))
    both(listing, b'a\nb\nc', symmetric=((10, 1),))
    both(listing, b'a\nb>', asymmetric=((10, 62, 1),))
    both(listing, b'<a\nb', asymmetric=((60, 10, 1),))
    listing.comment('opener = closer, opener = escape, closer = escape, fence = escape')
    both(listing, b'<a<b<', asymmetric=((60, 60, 1),))
    both(listing, b'<a><b>', escape=60)
    both(listing, b'<a>>', escape=62)
    both(listing, b'~\n~', escape=126)
    listing.comment('count 0 and minimum 0, counts over 255')
    both(listing, b'`a` <b>', symmetric=((96, 0),), asymmetric=((60, 62, 0),))
    both(listing, b'~\n\n~', fences=((126, 0),))
    both(listing, b'`a` <b>', symmetric=((96, 257),), asymmetric=((60, 62, 4294967295),))
    listing.comment('a fence byte that is dropped from the eleven never opens, and still ends a paragraph')
    eleven = tuple((byte, 2) for byte in b'abcdefghijk')
    both(listing, b'~', fences=(*eleven, (126, 1)))
    both(listing, b'aa\n<\n~\n>', fences=(*eleven[:10], (126, 1)))
    both(listing, b'bb\n~\nbb', fences=(*eleven, (126, 1)))
    both(listing, b'<a\n~\n>', fences=(*eleven[:9], (96, 3), (126, 1)))
    both(listing, b'`a\n~\nb`', fences=eleven[:10], symmetric=((96, 1),), asymmetric=((126, 62, 1),))
    both(listing, b'`a\n~\nb`', fences=(*eleven[:10], (96, 2), (126, 1)))
    listing.comment('no rules; other bytes')
    both(listing, b'`a` <b> ~', (), (), ())
    both(listing, b'\xff\0\xff\0', ((255, 1),), (), (), eol=0, escape=1, sep=2, tab=3)
    both(listing, b'\0a\xff', (), (), ((0, 255, 1),), eol=1, escape=2)


def runs(listing):
    """Runs about 255, where a fence's count stops and an inline rule's doesn't."""
    listing.comment('fence runs stop at 255 while the whole run is eaten')
    lengths = 253, 254, 255, 256, 257
    for least in (0, 3, 255):
        for first in lengths:
            for second in lengths:
                lines = (126, first), (10, 1), (126, second), (10, 1), (97, 1)
                N.long(listing, (10, 92, 32, 9, ((126, least),), (), ()), lines)
    listing.comment('inline counts are exact')
    for count in (1, 253, 255, 256, 257, 512):
        for first in (1, *lengths, 512):
            rules = ((96, count),), ((60, 62, count),)
            R.long(listing, (10, 92, 32, 9, (), *rules), ((96, first), (97, 1), (96, count)))
            R.long(listing, (10, 92, 32, 9, (), *rules), ((60, first), (97, 1), (62, 1)))
    for escapes in lengths:
        R.long(listing, HOUSE, ((92, escapes), (60, 1), (92, escapes + 1), (62, 1), (62, 1)))


def cells(listing):
    listing.comment('room for all, one short, none; an odd cell is no room')
    for text in (b'', b'<>', b'<a><b>', b'`a`\n\n~~~\nb\n~~~\n\n<c>', b'<><><><><><>'):
        regions = len(listing.oracle.numbers(R.request, *R.words(HOUSE), text.hex() or '-')) // 2 - 1
        for size in sorted({0, 1, 2, max(0, regions * 2 - 2), max(0, regions * 2 - 1), regions * 2, regions * 2 + 1,
                            regions * 2 + 2, 20}):
            C.full(listing, (size, *HOUSE), text)


def search_bytes(listing):
    listing.comment('the bytes that are searched for: in this order, without repeats, the first eleven')
    letters = b'abcdefghijklm'
    for fences, symmetric, asymmetric in (
            (b'', b'', b''), (b'`~', b'`', b'<'), (b'', b'ab', b'ba'), (b'aa', b'a', b'a'), (b'\0', b'\0\xff', b'\0'),
            (letters[:11], b'', b''), (letters[:12], b'', b''), (letters[:11], b'a', b'z'), (b'', letters[:10], b'kl'),
            (b'', b'', letters), (b'abc', b'cdefgh', b'hijklm'), (b'aba', b'bcb', letters), (b'mlk', b'jih', b'gfedcba')):
        rules = tuple((b, 3) for b in fences), tuple((b, 1) for b in symmetric), tuple((b, 62, 1) for b in asymmetric)
        B.full(listing, (10, 92, 32, 9, *rules), b'')


def grammars():
    """Grammars whose bytes collide, with what is equal."""
    pair, angle = ((96, 1),), ((60, 62, 1),)
    tilde, ticks = ((126, 1),), ((96, 1), (126, 2))
    yield 'short fences', (10, 92, 32, 9, ((96, 1), (126, 1)), pair, angle)
    yield 'escape = line end', (10, 10, 32, 9, tilde, pair, angle)
    yield 'fence = line end', (10, 92, 32, 9, ((10, 1), (126, 1)), pair, angle)
    yield 'closer = line end', (10, 92, 32, 9, tilde, pair, ((60, 10, 1),))
    yield 'opener = line end', (10, 92, 32, 9, tilde, pair, ((10, 62, 1), (60, 62, 1)))
    yield 'symmetric = line end', (10, 92, 32, 9, tilde, ((10, 1), (96, 1)), angle)
    yield 'opener = closer', (10, 92, 32, 9, tilde, pair, ((60, 60, 1), (62, 62, 2)))
    yield 'symmetric = opener', (10, 92, 32, 9, tilde, ((60, 1),), ((60, 62, 2), (96, 62, 1)))
    yield 'counts 0', (10, 92, 32, 9, tilde, ((96, 0),), ((60, 62, 0), (45, 46, 1)))
    yield 'minimums 0', (10, 92, 32, 9, ((126, 0), (45, 0)), pair, angle)
    yield 'counts 2', (10, 92, 32, 9, ((126, 2),), ((96, 2), (45, 1)), ((60, 62, 2), (49, 46, 1)))
    yield 'more than eleven, a fence dropped', (
        10, 92, 32, 9, (*((b, 2) for b in b'abcdefghi`-'), (126, 1)), ((96, 1), (126, 1)), angle)
    yield 'more than eleven, rules dropped', (
        10, 92, 32, 9, tilde, tuple((b, 1) for b in b'abcdefgh-.'), ((60, 62, 1), (96, 62, 1), (49, 46, 1)))
    yield 'two rules with one byte', (
        10, 92, 32, 9, ((126, 2), (126, 1)), ((96, 2), (96, 1)), ((60, 62, 1), (60, 45, 1)))
    yield 'escape = fence', (10, 126, 32, 9, ticks, pair, angle)
    yield 'escape = symmetric', (10, 96, 32, 9, tilde, pair, angle)
    yield 'escape = opener', (10, 60, 32, 9, tilde, pair, angle)
    yield 'escape = closer', (10, 62, 32, 9, tilde, pair, angle)
    yield 'separator = line end', (10, 92, 10, 9, tilde, pair, angle)
    yield 'separator = fence, tab = closer', (10, 92, 126, 62, tilde, pair, angle)
    yield 'line end = separator', (32, 92, 32, 9, ticks, pair, angle)
    yield 'line end = fence = closer', (126, 92, 32, 9, ticks, pair, ((60, 126, 1),))
    yield 'all grammar bytes equal', (45, 45, 45, 45, ((45, 1), (126, 1)), pair, angle)
    yield 'the blanks as rules', (10, 92, 32, 9, ((32, 1),), ((9, 1),), ((92, 46, 1),))


def blocks(listing):
    listing.comment('blocks: the house rules, every text to five bytes')
    R.blocks(listing, HOUSE, TELLING, 5)
    N.blocks(listing, HOUSE, TELLING, 5)
    listing.comment('short fences, every text to six bytes over fewer')
    R.blocks(listing, SHORT, FEW, 6)
    N.blocks(listing, SHORT, FEW, 6)
    for what, grammar in grammars():
        listing.comment(f'{what}, every text to four bytes')
        R.blocks(listing, grammar, TELLING, 4)
        D.blocks(listing, grammar, TELLING, 3)
        N.blocks(listing, grammar, TELLING, 4)
    listing.comment('lists of no to nine cells')
    for size in range(10):
        C.blocks(listing, (size, *SHORT), FEW, 5)
    listing.comment('texts that are drawn')
    for grammar in (HOUSE, SHORT, *(g for _, g in grammars())):
        N.drawn(listing, grammar, b'\n\n\\ ``~<>>-ab', 60, 1, 300)
    for seed in (1, 2, 3):
        R.drawn(listing, HOUSE, b'\n```~~~~<>> abcdefghijklmnop\\', 1200, seed, 30)
        N.drawn(listing, SHORT, b'\n`~<> abcdefgh\\', 600, seed, 60)
        C.drawn(listing, (10, *SHORT), b'\n`~<> abcdefgh\\', 40, seed, 500)
