"""Questions to the oracle, and how they stand in a request and in a line of a list."""


def hexed(text):
    return text.hex() or '-'


def commas(entries):
    """A list in a request; an entry of several numbers has colons."""
    return ','.join(str(e) if isinstance(e, int) else ':'.join(map(str, e)) for e in entries) or '-'


def spaced(numbers):
    return ' '.join(map(str, numbers))


def counted(numbers):
    """A list in a line: how many numbers, then these."""
    return f'{len(numbers)}: {spaced(numbers)}' if numbers else '0'


def flat(entries):
    return [n for entry in entries for n in entry]


# The parameters that are lists of any length, each with the names of its columns: in a line every
# column is a list of its own.
COLUMNS = {'rules': ('rules', 'minimums'), 'accepted': ('accepted',), 'markers': ('markers',), 'delimiters': ('delimiters',), 'open': ('open',),
           'fences': ('fences', 'minimums'), 'symmetric': ('symmetric', 'times'),
           'asymmetric': ('openers', 'closers', 'counts')}


def listed(name, value):
    """A parameter in a line."""
    if name in ('pending', 'regions'):
        return f'{name} {counted(flat(value))}'
    if name in COLUMNS:
        rows = [(v,) if isinstance(v, int) else v for v in value]
        return ', '.join(f'{column} {counted([row[i] for row in rows])}'
                         for i, column in enumerate(COLUMNS[name]))
    return f'{name} {spaced(value) if isinstance(value, tuple) else value}'


class Question:
    """A question about a text: its letter, the request that asks it, its parameters as a line has
    them. `place` is what the place is called where one follows the text, `order` the order of the
    parameters in the request where it is another. The text of a lone question plays no part, and the
    request has none."""

    def __init__(self, letter, request, parameters, place=None, order=None, lone=False):
        self.letter, self.request, self.place, self.lone = letter, request, place, lone
        self.parameters = parameters.split()
        self.order = order.split() if order else self.parameters

    def words(self, values):
        by_name = dict(zip(self.parameters, values, strict=True))
        return [str(v) if isinstance(v, int) else commas(v) for v in map(by_name.get, self.order)]

    def shown(self, values):
        return ''.join(f'{listed(name, v)}, ' for name, v in zip(self.parameters, values, strict=True))

    def full(self, listing, values, text, *places):
        """The text in full, at each of the places."""
        self.put(listing, self.letter, values, text, f'text {counted(text)}', places)

    def long(self, listing, values, runs, *places):
        """The text in runs: pairs of a byte and how often it stands there."""
        text = b''.join(bytes([byte]) * times for byte, times in runs)
        self.put(listing, self.letter + '*', values, text, f'runs {counted(flat(runs))}', places)

    def put(self, listing, sign, values, text, shown, places):
        for place in places if self.place else (None,):
            at = [] if place is None else [place]
            of = [] if self.lone else [hexed(text), *at]
            answer = listing.oracle.numbers(self.request, *self.words(values), *of)
            where = ''.join(f', {self.place} {n}' for n in at)
            listing.put(sign, f'{self.shown(values)}{shown}{where}', answer)

    def block(self, listing, values, alphabet, length):
        """All texts of a length over an alphabet."""
        sums = listing.oracle.sums('block', '-', self.request, *self.words(values), commas(alphabet), length)
        question = f'{self.shown(values)}bytes {counted(alphabet)}, length {length}'
        listing.put(self.letter.upper(), question, sums)

    def blocks(self, listing, values, alphabet, longest, shortest=0):
        for length in range(shortest, longest + 1):
            self.block(listing, values, alphabet, length)

    def drawn(self, listing, values, alphabet, length, seed, times):
        """Texts that are drawn."""
        tail = length, seed, times
        sums = listing.oracle.sums('drawn', '-', self.request, *self.words(values), commas(alphabet), *tail)
        question = f'{self.shown(values)}bytes {counted(alphabet)}, length {length}, seed {seed}, times {times}'
        listing.put(self.letter.upper() + '*', question, sums)

    def altered(self, oracle, values, alphabet, length, k):
        """The sums of a block whose k-th value is one more; with k None as they are."""
        return oracle.sums('block', k or '-', self.request, *self.words(values), commas(alphabet), length)
