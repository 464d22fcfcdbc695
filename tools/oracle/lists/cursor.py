"""Section 7: the cursor."""
from .ask import Question

PARAMETERS, ORDER = 'count index place regions', 'regions index place'
V = Question('v', 'covering_end', PARAMETERS, order=ORDER, lone=True)
W = Question('w', 'covering_end', PARAMETERS, order=ORDER, lone=True)
ALTERED = ()

NUMBER, NAME = 7, 'cursor'
ABOUT = """
The cursor over a list of regions. Lines are read as in section 1.

v  covering_end: how many regions, the cursor's index, the place; the regions, two numbers each; no text
w  the same of a cursor that is lent and moves on

The answer is 1 and the end, or 2 for None, and then the index after the query. Where queries follow each
other each has the index that the last one left.
"""

BUILT = ((), ((0, 3),), ((0, 3), (5, 14), (16, 19)), ((0, 3), (3, 6)), ((2, 3), (3, 4), (6, 9), (12, 13)))
# Unsorted, overlapping, empty, reversed, and repeated regions.
HANDMADE = (((5, 9), (1, 3), (4, 8)), ((0, 9), (2, 4), (3, 12)), ((3, 3), (4, 4), (4, 6)), ((8, 2), (5, 7), (9, 1)),
            ((1, 4), (1, 4), (1, 4)), ((4294967295, 4294967295), (0, 4294967295)), ((0, 1), (4294967294, 4294967295)))


def make(listing):
    listing.comment('rising places')
    for regions in BUILT:
        run(listing, regions, range(22))
    listing.comment('falling places get what the advanced cursor gives')
    for regions in BUILT:
        run(listing, regions, (15, 14, 13, 5, 4, 2, 0, 17, 18, 19, 3, 0))
    listing.comment('places that are drawn')
    for seed, regions in enumerate((*BUILT[2:], *HANDMADE), 1):
        run(listing, regions, drawn(seed, 20))
    listing.comment('lists that no builder makes, rising and falling')
    for regions in HANDMADE:
        run(listing, regions, (*range(14), 4294967294, 4294967295, 6, 0))
    listing.comment('every index, also past the count')
    for regions in (*BUILT, *HANDMADE):
        for index in (*range(len(regions) + 2), 4294967295):
            for place in (0, 2, 3, 5, 9, 4294967295):
                query(listing, regions, index, place)


def drawn(seed, times):
    """Places below 20."""
    for _ in range(times):
        seed = (seed * 1103515245 + 12345) % 2**31
        yield seed // 65536 % 20


def query(listing, regions, index, place):
    values = len(regions), index, place, regions
    for question in (V, W):
        question.full(listing, values, b'')
    return listing.oracle.numbers(V.request, *V.words(values))[-1]


def run(listing, regions, places):
    index = 0
    for place in places:
        index = query(listing, regions, index, place)
