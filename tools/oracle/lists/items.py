"""What the lists of both item scanners share: the questions' parameters, sets of accepted bytes, grammars."""
from .ask import Question

FRESH = 'eol sep tab accepted'
STEP = 'nn streaming eol sep tab needles accepted'
ORDER = 'eol sep tab accepted needles nn streaming'
HOUSE = 10, 32, 9


def questions(name):
    """A fresh state, all its items, one step."""
    return (Question('f', f'{name}_new', FRESH), Question('r', f'{name}_run', FRESH),
            Question('s', f'{name}_step', STEP, 'pos', order=ORDER))


ABOUT = """
f  a fresh state: line end, separator, tab; the accepted bytes; text
r  all items that a fresh state yields: as f
s  one step of a handmade state: needle count, whether it streams (1 or 0), line end, separator, tab, three
   needles; the accepted bytes; text; the position

A state is line end, separator, tab, the three needles as a list, their count, the flag, the position.
The answer to f is 1 and the state; to r 1, how many items there are, and these; to s 1 and an item, or 2
for None, and then the state after the step. S asks at positions from 0 to n.
"""


def needles(accepted):
    """Three cells, as a fresh state's first three accepted bytes in rising order."""
    return tuple((sorted(set(accepted)) + [0, 0, 0])[:3])


def handmade(step, listing, bounds, accepted, text, others=()):
    """Every position, both flags, every needle count to 4, with the set's own needles and others."""
    for cells in (needles(accepted), *others):
        for streaming in (0, 1):
            for nn in range(5):
                values = nn, streaming, *bounds, cells, tuple(accepted)
                step.full(listing, values, text, *range(len(text) + 1))


def blocks(run, step, listing, telling, sets, state, collisions):
    """Blocks over the telling bytes: runs for sets of none to five accepted bytes, a handmade state (its
    needles and its set), and bytes that collide, streamed and line by line."""
    listing.comment('blocks: every text to five bytes, no to five accepted bytes')
    for accepted in sets:
        run.blocks(listing, (*HOUSE, tuple(accepted)), telling, 5)
    listing.comment('handmade states at every position, both flags, every needle count, to four bytes')
    for streaming in (0, 1):
        for nn in range(5):
            step.blocks(listing, (nn, streaming, *HOUSE, *state), telling, 4)
    listing.comment('equal bytes, every text to four bytes')
    for bounds, few in collisions:
        for more in (b'', b'wxyz'):
            accepted = tuple(few + more)
            run.blocks(listing, (*bounds, accepted), telling, 4)
            for streaming in (1, 0):
                step.blocks(listing, (3, streaming, *bounds, needles(accepted), accepted), telling, 4)
