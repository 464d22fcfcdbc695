"""Runs over 255, for `tools/compare`: where a count of eight or sixteen bits would show."""
from itertools import product

from . import block_marker, block_numbered, common, cont, context, fence, items

# About 2^8, 2^9 and 2^16.
EIGHT, NINE, SIXTEEN = (254, 255, 256, 257), (511, 512, 513), (65535, 65536, 65537)
# Ten digits are too many; with nine more than a power of two a short count would say nine.
DIGITS = 8, 9, 10, 255, 256, 257, 264, 265, 266, 65536 + 9
NESTS = 0, 1, 8, 31, 32, 33, 255, 256, 257, 264, 65536 + 8


def texts(lengths):
    """Texts that are asked about by the house grammar, and places of them."""
    for n in lengths:
        for text, place in one_run(n):
            yield text, sorted({0, place, n, len(text)})
        for less in (0, 1):
            yield from fenced(n, n - less)
    for n, mark in product(DIGITS, (b'. a', b') a', b'.a', b' a')):
        yield b'1' * n + mark + b'\n- b', (0, n)


def one_run(n):
    """A run of each byte that is counted or passed over, and the place behind it."""
    for before, byte, behind in (
            (b'', b'\\', b'`a`'), (b'', b'\\', b'<a>'), (b'<a', b'\\', b'>>'), (b'`a', b'\\', b'``'), (b'~~~', b'\\', b'\n'),
            (b'', b'`', b'a`'), (b'`a', b'`', b'\n- b'), (b'', b'<', b'a>'), (b'<a', b'>', b''),
            (b'', b' ', b'- a'), (b'', b'\t', b'1. a'), (b'-', b' ', b'a'), (b'1.', b' ', b'a'), (b'~~~\n1. a\n~~~', b' ', b'\n1. b'),
            (b'', b'>', b' a\nb'), (b'', b'> ', b'a\n> b'), (b'', b'>>\n', b'a'), (b'>', b' ', b'> a'),
            (b'', b'\n', b'- a'), (b'<a', b'\n', b'b>'), (b'', b'a', b'<b>'), (b'- ', b'-', b'\n- a'), (b'', b'0', b'1. a'),
            (b'', b'`a`', b''), (b'', b'<>\n', b''), (b'', b'- a\n', b'1. b'), (b'', b'1. a\n', b'~~~'), (b'', b'<b\n', b'>')):
        yield before + byte * n + behind, len(before) + n * len(byte)


def fenced(n, m):
    """A fence of so many bytes, and lines of about as many that may close it."""
    for first, second in ((n, m), (m, n)):
        text = b'~' * first + b'\n1. a\n' + b'~' * second + b' \n1. b'
        yield text, (0, first, first + 6 + second)


def questions(lengths):
    """Questions by rules with long counts, by many rules, and by sets of many bytes."""
    yield from by_counts(lengths)
    yield from by_minimums()
    yield from by_many_rules()
    yield from by_sets(lengths)
    for n, nest in product(lengths, NESTS):
        yield cont.R, (nest, *cont.HOUSE), b'>' * n + b' a\n' + b'>' * (n - 1) + b'b\nc'


def by_counts(lengths):
    """"The opening run must be exactly the count"; a count has 32 bits, so that one and a power of two is not one."""
    for count, n in product((1, *lengths, 2**16 + 1, 2**24 + 1, 2**32 - 1), lengths):
        pairs = 10, 92, 32, 9, (), ((96, count),), ((60, 62, count),)
        yield context.R, pairs, b'`' * n + b'a' + b'`' * (count if count in lengths else 1) + b' `a`'
        yield context.R, pairs, b'<' * n + b'a>' + b'<a>'


def by_minimums():
    """"Run counts stop at 255", and so does a minimum."""
    for least, first, second in product((0, 1, 254, 255), EIGHT, (1, *EIGHT, *NINE)):
        text = b'~' * first + b'\na\n' + b'~' * second + b'\n<b>'
        yield fence.R, (126, least, *fence.HOUSE[2:]), text
        yield context.R, (10, 92, 32, 9, ((126, least),), (), ((60, 62, 1),)), text
        yield common.P, (98, 10, ((126, least),)), b'a\n' + b'~' * first + b'\nb'


def by_many_rules():
    """The rule that decides stands behind so many others of one byte."""
    for n in (*EIGHT, *NINE):
        fences, pairs, angles = ((97, 1),) * n + ((126, 1),), ((97, 1),) * n + ((96, 2),), ((97, 98, 1),) * n + ((60, 62, 2),)
        text = b'``b``<<b>a\n~\nb\n~\n<<c\n~>'
        for rules in ((fences, (), ()), ((), pairs, ()), ((), (), angles), (fences, pairs, angles)):
            yield context.R, (10, 92, 32, 9, *rules), text
            yield context.B, (10, 92, 32, 9, *rules), b''
        yield common.P, (99, 10, fences), b'a\n~\nc'


def by_sets(lengths):
    """Sets of every byte, and of one byte many times."""
    text = b'- a\n1. b\n\xff c\n2\xff d'
    sets = tuple(range(256)), *((45,) * n for n in lengths if n < 1000), *((46,) * n + (255,) for n in lengths if n < 1000)
    for accepted in sets:
        for module in (block_marker, block_numbered):
            yield module.R, (*items.HOUSE, accepted), text
