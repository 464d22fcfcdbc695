"""Amendments, for `tools/compare`: grammars, replacements, and edits that are drawn. None is stored: the program `amends` makes its own."""
from . import context
from .ask import commas, hexed

# line end, tilde, less, greater, backtick
FEW = b'\n~<>`'
# The page's example P11.
NOTE = b'`a`\n\n~~~\nb\n~~~\n\n<c>'


def grammars():
    yield context.HOUSE
    yield context.SHORT
    for _, grammar in context.grammars():
        yield grammar


def replacements(grammar):
    """Texts that end in two line ends or don't, and whose own regions reach their end or don't."""
    end = bytes([grammar[0]])
    closed = b'', b'a', b'`a`', b'<a>', b'<', b'>', b'~', b'~' + end + b'~', b'~~~' + end + b'~~~', b'\\', b'`'
    return b'', end, b'a', b'~', b'<a>', end + b'a', *(text + end * 2 for text in closed)


def telling(grammar):
    """The bytes of short texts by a grammar, its line end among them."""
    return bytes(dict.fromkeys([grammar[0], *FEW]))


def every_pair(grammar):
    """The words of `context_amends`: every pair of cuts, every replacement."""
    return 'context_amends', '/'.join(map(hexed, replacements(grammar))), *context.R.words(grammar)


def edit(first, second, replacement, grammar):
    """The words of an edit; a replacement may be a word itself."""
    replacement = replacement if isinstance(replacement, str) else hexed(replacement)
    return str(first), str(second), replacement, *context.R.words(grammar)


def of_built(text, *of):
    """An edit of a text by the list that is built from it."""
    return 'context_amend', *edit(*of), hexed(text)


def of_given(regions, text, *of):
    """The same by a list that is given."""
    return 'amend', commas(regions), *edit(*of), hexed(text)


def joints(text, eol):
    """The places behind two line ends, and both ends."""
    behind = (k for k in range(2, len(text)) if text[k - 2] == text[k - 1] == eol)
    return [0, *behind, len(text)]


def drawn(chance):
    """An edit by a list that is given: three times of four in order, the cuts behind empty lines."""
    grammar = chance.choice(list(grammars()) + [context.HOUSE, context.SHORT] * 8)
    end = bytes([grammar[0]])
    text = b''.join(chance.choices((end * 2, end, b'~', b'<', b'>', b'`', b'aa', b'\\'), k=chance.randrange(20)))
    places = chance.choices(range(len(text) + 1 + (not chance.randrange(8))), k=2 * chance.randrange(5))
    regions = places if not chance.randrange(4) else sorted(set(places))
    among = joints(text, grammar[0]) if chance.randrange(4) else range(len(text) + 2)
    cuts = chance.choices(among, k=2)
    cuts = cuts if not chance.randrange(8) else sorted(cuts)
    return of_given(list(zip(regions[::2], regions[1::2])), text, *cuts, chance.choice(replacements(grammar)), grammar)
