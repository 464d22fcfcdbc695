"""Section 1: the leaves of common.rs, and the fence tests of context.rs."""
from .ask import Question, commas, counted, flat, hexed

FENCE = 'byte count eol sep tab'
E = Question('e', 'find_line_end', 'eol', 'from')
C = Question('c', 'count_escape', 'escape', 'at')
P = Question('p', 'next_in_paragraph', 'needle eol rules', 'from')
A = Question('a', 'find_any_of', 'count needles', 'from')
O = Question('o', 'fence_opens', 'eol rules', 'at')
K = Question('k', 'fence_closes', FENCE, 'at')
S = Question('s', 'fence_close_scan', FENCE, 'from')

# a, line end, backtick, tilde, backslash, blank, less, greater
TELLING = b'a\n`~\\ <>'

# Blocks of which one answer is altered (tools/answers --altered).
ALTERED = ((E, (10,)), (C, (92,)), (P, (62, 10, ((126, 1),))), (A, (2, (96, 60, 97))), (O, (10, ((126, 1),))),
           (K, (96, 1, 10, 32, 9)), (S, (96, 1, 10, 32, 9)))

NUMBER, NAME = 1, 'common'
ABOUT = """
The leaves of common.rs, and the fence tests of context.rs.

A line is one letter and decimal numbers; all that isn't a digit parts them, and the words between
are for a reader. Numbers before the equals sign ask, those after it answer.
A text, and any other list, is its length and its numbers. Rules are two lists, bytes and minimums.
A letter with a star has its text in runs: for each a byte and how often it stands there.

e  find_line_end: line end; text; place
c  count_escape: escape; text; place
p  next_in_paragraph, the entered line tested by fence_opens_line: needle, line end; rules; text; place
a  find_any_of in the text from a place on: needle count, three needles; text; place
o  fence_opens, the line's end being find_line_end's: line end; rules; text; place
k  fence_closes, likewise: fence byte, count, line end, separator, tab; text; place
s  fence_close_scan after an opening line that ends just before the place: as k
b  probe_matcher: the accepted bytes
r  fence_opens at 0 and, where it gives a count, fence_close_scan after that line: fence byte, minimum,
   line end, separator, tab; text

An answer is 1 and the value, or 2 for None, or 0 where the Rust panicked. The value of k is 1 or 0.
For b it is 1 and the count, or 2, and then the three cells of the buffer as a list.
For r it is 2, or 1, the count and the end that the scan gives.

A capital letter asks the same of all texts of one length: the parameters as above, the size of an
alphabet and its bytes, the length n; the answer is how many questions were asked, and two sums.
With A bytes in the alphabet there are A^n texts: byte j of text i is alphabet[(i / A^j) % A].
Texts come in the order of i, and for each the places in rising order:
E C P from 0 to n + 1, A O K from 0 to n, S from 1 to n.
Both sums begin at 0. To feed x: h = (h * 65599 + x + 1) % 4294967291 for the first,
h = (h * 69069 + x + 1) % 4294967279 for the second.
Each question feeds n, the bytes, the place where it has one, and the numbers of the answer.

A capital letter with a star asks of texts that are drawn: behind the length stand a seed and how many
texts there are. A number d begins at the seed; for each byte d = (d * 1103515245 + 12345) % 2^31,
and the byte is alphabet[(d / 2^16) % A]. The next text goes on with the d of the last.
"""


def make(listing):
    line_ends(listing)
    escapes(listing)
    paragraphs(listing)
    any_of(listing)
    openings(listing)
    closings(listing)
    close_scans(listing)
    probes(listing)
    runs(listing)
    blocks(listing)


def line_ends(listing):
    def ask(eol, text, *places):
        E.full(listing, (eol,), text, *places)

    listing.comment('find_line_end: at the place, after it, none left, past the text')
    ask(10, b'', 0, 1, 4294967295)
    ask(10, b'a', 0, 1, 2)
    ask(10, b'\n', 0, 1)
    ask(10, b'a\nb\n', 0, 1, 2, 3, 4, 5)
    ask(10, b'\n\n', 0, 1, 2)
    ask(97, b'\nba', 0, 2, 3)
    ask(0, b'a\0', 0)
    ask(255, b'\xfe\xff', 0)
    ask(10, b'a' * 36 + b'\n' + b'b' * 9, 3, 36, 37)


def escapes(listing):
    def ask(escape, text, *places):
        C.full(listing, (escape,), text, *places)

    listing.comment('count_escape: the run just before a place, whatever stands at it')
    ask(92, b'', 0, 1, 4294967295)
    ask(92, b'\\', 0, 1, 2)
    ask(92, b'\\\\a', 1, 2, 3)
    ask(92, b'\\a\\\\\\`', 1, 2, 3, 4, 5, 6)
    ask(10, b'a\n\nb', 3)
    ask(0, b'\0\0', 2)
    ask(255, b'\xff\xfe', 1, 2)
    ask(92, b'\\' * 40, 39, 40)


def paragraphs(listing):
    def ask(needle, eol, rules, text, *places):
        P.full(listing, (needle, eol, rules), text, *places)

    listing.comment('next_in_paragraph: the line it starts in is never tested, not for being empty either')
    ask(98, 10, (), b'\n\nb', 0, 1, 2, 3, 4)
    ask(62, 10, ((126, 3),), b'~~~\n>', 0)
    ask(62, 10, ((126, 1),), b'a\n~\n>', 0, 1, 2)
    listing.comment('single line ends are crossed, an empty line ends the paragraph, a line of blanks is not empty')
    ask(62, 10, (), b'<a\nb\nc>', 1)
    ask(62, 10, (), b'<a\n\nb>', 1)
    ask(62, 10, (), b'<a\n \nb>', 1)
    ask(62, 10, (), b'a\n', 0)
    ask(62, 10, (), b'a\n\n', 0)
    ask(62, 10, (), b'', 0, 1)
    ask(62, 10, (), b'>>', 0, 1, 2, 3)
    ask(62, 10, (), b'a' * 20 + b'\n' + b'b' * 20 + b'>', 0)
    listing.comment('the line end itself is never found')
    ask(10, 10, (), b'a\nb', 0)
    ask(10, 10, (), b'\n', 0)
    ask(97, 97, (), b'bab', 0)
    listing.comment('an entered line that opens a fence ends the paragraph')
    ask(62, 10, ((126, 3),), b'a\n~~~\nb>', 0)
    ask(62, 10, ((126, 4),), b'a\n~~~\nb>', 0)
    ask(62, 10, ((126, 1),), b'a\n~', 0)
    ask(62, 10, ((126, 1),), b'a\n~x~\n>', 0)
    ask(62, 10, ((126, 1),), b'a\n ~\n>', 0)
    ask(126, 10, ((126, 1),), b'a\n~', 0)
    ask(126, 10, ((126, 2),), b'a\n~', 0)
    listing.comment('of two rules with one byte the first decides')
    ask(62, 10, ((126, 3), (126, 1)), b'a\n~\n>', 0)
    ask(62, 10, ((126, 1), (126, 3)), b'a\n~\n>', 0)
    ask(62, 10, ((96, 1), (126, 1)), b'a\n~\n>', 0)
    listing.comment('minimum 0 still wants the byte; 255; a fence byte that is the line end')
    ask(62, 10, ((126, 0),), b'a\n~\n>', 0)
    ask(62, 10, ((126, 0),), b'a\nb\n>', 0)
    ask(62, 10, ((126, 255),), b'a\n~~~\n>', 0)
    ask(62, 10, ((10, 0),), b'a\nb\n>', 0)
    listing.comment('other bytes')
    ask(62, 32, ((126, 1),), b'a ~\n>', 0)
    ask(62, 126, ((126, 0),), b'a~b~>', 0)
    ask(0, 255, ((1, 1),), b'\xff\x02\0', 0)
    ask(0, 255, ((1, 1),), b'\xff\x01\0', 0)


def any_of(listing):
    def ask(count, needles, text, *places):
        A.full(listing, (count, needles), text, *places)

    listing.comment('find_any_of: the first needles alone count, from three on all three')
    for count in range(6):
        ask(count, (97, 98, 99), b'dcba', 0)
    ask(1, (97, 0, 0), b'\0a', 0)
    ask(3, (97, 0, 0), b'b\0a', 0)
    ask(2, (97, 97, 98), b'ba', 0, 1, 2)
    ask(3, (255, 0, 10), b'a\n\xff', 0, 1, 2, 3)
    ask(4294967295, (97, 98, 99), b'dc', 0)
    ask(3, (97, 98, 99), b'', 0)
    for count in (1, 2, 3):
        ask(count, (120, 121, 122), b'-' * 37 + b'zyx', 5)


def openings(listing):
    def ask(eol, rules, text, *places):
        O.full(listing, (eol, rules), text, *places)

    listing.comment('fence_opens: run and minimum, a further fence byte on the line')
    for least in (0, 3, 255):
        ask(10, ((126, least),), b'~~~', 0)
    ask(10, ((126, 3),), b'~~', 0)
    ask(10, ((126, 3),), b'~~~~ info\n~', 0)
    ask(10, ((126, 3),), b'~~~ a~\n', 0)
    ask(10, ((126, 3),), b'~~~\n~~~', 0)
    ask(10, ((126, 1),), b'~' * 40, 0)
    listing.comment('the place need not begin a line; at a line end or the text\'s end nothing opens')
    ask(10, ((126, 1),), b'a~~\n', 0, 1, 2, 3, 4)
    ask(10, ((126, 0),), b'', 0)
    ask(10, ((126, 0),), b'a', 0)
    ask(10, (), b'~', 0)
    listing.comment('of two rules with one byte the first decides')
    ask(10, ((126, 3), (126, 1)), b'~', 0)
    ask(10, ((126, 1), (126, 3)), b'~', 0)
    ask(10, ((96, 3), (126, 1)), b'~`', 0)
    listing.comment('a fence byte that is the line end never opens')
    ask(10, ((10, 0),), b'\n\n', 0)
    ask(126, ((126, 1), (96, 1)), b'``~', 0, 2)


def closings(listing):
    def ask(byte, count, eol, sep, tab, text, *places):
        K.full(listing, (byte, count, eol, sep, tab), text, *places)

    listing.comment('fence_closes: run and count, then blanks to the line\'s end')
    for count in (0, 1, 3, 4, 255):
        ask(126, count, 10, 32, 9, b'~~~', 0)
    ask(126, 3, 10, 32, 9, b'~~~ \t \na', 0)
    ask(126, 3, 10, 32, 9, b'~~~ a', 0)
    ask(126, 1, 10, 32, 9, b'~ ~', 0)
    ask(126, 1, 10, 32, 9, b' ~', 0, 1, 2)
    listing.comment('count 0 wants no run')
    ask(126, 0, 10, 32, 9, b'', 0)
    ask(126, 0, 10, 32, 9, b'  \n', 0)
    ask(126, 0, 10, 32, 9, b'a', 0, 1)
    listing.comment('equal bytes: tab and fence, separator and line end, fence and line end')
    ask(126, 1, 10, 32, 126, b'~ ~', 0)
    ask(126, 1, 10, 10, 9, b'~ ', 0)
    ask(126, 1, 10, 10, 9, b'~\n', 0)
    ask(10, 0, 10, 32, 9, b'\n', 0)
    ask(10, 1, 10, 32, 9, b'\n', 0)
    ask(255, 2, 0, 1, 1, b'\xff\xff\x01\0', 0)


def close_scans(listing):
    def ask(byte, count, eol, sep, tab, text, *places):
        S.full(listing, (byte, count, eol, sep, tab), text, *places)

    listing.comment('fence_close_scan: the first line whose run is long enough, else the text\'s end')
    ask(126, 4, 10, 32, 9, b'~~~~\n~~~\n~~~~ \n', 5)
    ask(126, 3, 10, 32, 9, b'~~~~\n~~~\n~~~~ \n', 5)
    ask(126, 3, 10, 32, 9, b'~~~\na\n~~~a\n~~~', 4)
    ask(126, 1, 10, 32, 9, b'~\na', 2, 3)
    ask(126, 1, 10, 32, 9, b'~', 1)
    ask(126, 255, 10, 32, 9, b'~\n~\n', 2)
    listing.comment('a run closes only where its line begins, and the place itself is tested for that too')
    ask(126, 1, 10, 32, 9, b'~\n ~\n~\n', 2)
    ask(126, 1, 10, 32, 9, b'a~~\n~\n', 1, 2, 3, 4)
    ask(126, 0, 10, 32, 9, b'~\n\n~', 2)
    listing.comment('equal bytes: tab and fence, separator and line end, fence and line end')
    ask(126, 1, 10, 32, 126, b'~\n~ ~\n', 2)
    ask(126, 1, 10, 10, 9, b'~\n~ \n', 2)
    ask(10, 0, 10, 32, 9, b'a\n\nb', 1, 2)
    ask(10, 1, 10, 32, 9, b'a\n\nb', 1, 2)
    ask(126, 1, 32, 32, 9, b'~ ~ a', 2)


def probes(listing):
    listing.comment('probe_matcher: in rising order, repeats once; over three the first three are left')
    for accepted in ((), (0,), (255,), (45,), (255, 0), (45, 43), (43, 43), (45, 42, 43), (0, 255, 128),
                     (3, 2, 1, 3), (4, 3, 2, 1), (255, 254, 253, 0), (9, 9, 9, 9, 9), (41, 46, 33, 63, 59),
                     (5, 4, 3, 2, 1, 0), (250, 255, 7, 7, 0, 128)):
        answer = listing.oracle.numbers('probe_matcher', commas(accepted))
        listing.put('b', f'bytes {counted(accepted)}', answer)


def runs(listing):
    """Runs about 255, where the count stops while the run is eaten whole."""
    def ask(byte, eol, least, first, second, sep=32, tab=9):
        lines = (byte, first), (eol, 1), (byte, second), (eol, 1)
        text = hexed(b''.join(bytes([b]) * times for b, times in lines))
        answer = listing.oracle.numbers('fence_opens', eol, f'{byte}:{least}', text, 0)
        if answer[0] == 1:
            start = (first if byte != eol else 0) + 1
            scan = listing.oracle.numbers('fence_close_scan', byte, answer[1], eol, sep, tab, text, start)
            answer += scan[1:]
        question = f'byte {byte}, least {least}, eol {eol}, sep {sep}, tab {tab}, runs {counted(flat(lines))}'
        listing.put('r*', question, answer)

    listing.comment('runs: a count stops at 255')
    pairs = ((1, 1), (1, 2), (2, 1), (3, 2), (3, 3), (3, 600), (253, 254), (254, 253), (254, 254), (254, 257),
             (255, 254), (255, 255), (255, 256), (256, 254), (256, 255), (257, 253), (257, 256), (600, 254),
             (600, 255), (600, 600))
    for least in (0, 3, 255):
        for first, second in pairs:
            ask(126, 10, least, first, second)
    for first, second in ((2, 3), (255, 254), (256, 255)):
        ask(255, 0, 2, first, second, 255, 0)
    ask(10, 10, 0, 3, 3)


def blocks(listing):
    """Every text of up to four telling bytes."""
    def block(leaf, *values, shortest=0):
        leaf.blocks(listing, values, TELLING, 4, shortest)

    listing.comment('blocks: every text of each length to four over eight telling bytes')
    for eol in (10, 32, 126, 7):
        block(E, eol)
    for escape in (92, 10, 97):
        block(C, escape)
    for needle in (96, 62, 10, 97):
        for eol in (10, 32, 126):
            for rules in ((), ((126, 1),), ((126, 3), (126, 1)), ((96, 2), (126, 0))):
                block(P, needle, eol, rules)
    for count, needles in ((0, (97, 10, 96)), (1, (62, 97, 10)), (1, (0, 97, 97)), (2, (96, 60, 97)),
                           (2, (10, 10, 92)), (3, (126, 92, 60)), (3, (60, 60, 60)), (4, (96, 62, 92))):
        block(A, count, needles)
    for eol, rules in ((10, ()), (10, ((126, 1),)), (10, ((126, 3), (126, 1))), (10, ((126, 1), (126, 3))),
                       (10, ((96, 2), (126, 0))), (10, ((96, 0),)), (10, ((96, 255),)), (10, ((10, 0), (96, 1))),
                       (10, ((97, 1), (96, 1), (126, 2))), (32, ((126, 1), (32, 1))), (126, ((126, 0), (96, 1)))):
        block(O, eol, rules)
    # By turns: plain; a longer count; count 0; 255; fence = line end; separator = line end;
    # tab = fence; line end = separator = tab; a letter as a blank.
    closes = ((96, 1, 10, 32, 9), (126, 2, 10, 32, 9), (126, 0, 10, 32, 9), (96, 255, 10, 32, 9),
              (10, 1, 10, 32, 9), (10, 0, 10, 32, 9), (96, 1, 10, 10, 9), (96, 1, 10, 32, 96),
              (96, 2, 10, 96, 62), (126, 1, 32, 32, 32), (97, 1, 126, 10, 97), (126, 1, 10, 97, 60))
    for fence in closes:
        block(K, *fence)
    for fence in closes:
        block(S, *fence, shortest=1)  # the empty text has no place to ask at
