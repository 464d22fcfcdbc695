"""The benchmark's texts: five that are drawn from fixed seeds, documents of Debian's packages, and hostile ones."""
import glob
import gzip
import random

WORDS = ('armature bank bend contact current exchange feed figure gauge ground hold impulse key lamp lever line loop magnet make '
         'measure note operate pawl pulse rack ratchet reading relay release ringing selector set shelf spring step switch test '
         'the and of to a in at with until after before when is are not more than less half under over between').split()


def words(chance, least, most):
    return [chance.choice(WORDS) for _ in range(chance.randint(least, most))]


def lines(chance, least, most, mark=lambda word: word):
    """Some lines of prose, each ended; `mark` may put marks about a word."""
    return ''.join(' '.join(map(mark, words(chance, 8, 13))).capitalize() + chance.choice(('.', '', '', ',')) + '\n'
                   for _ in range(chance.randint(least, most)))


def reading(chance):
    """A line of a pulse capture: it may look like an item, and no fence hides it from an item scanner."""
    head = chance.choice(('', '', f'{chance.randint(1, 999)}. ', '- ', '+'))
    return f'{head}{chance.random() * 50:.3f} {chance.random() * 9:.2f} {chance.getrandbits(12):012b} {chance.randint(0, 99)}\n'


def capture(chance, least, most, fences=('```', '~~~', '~~~~')):
    fence = chance.choice(fences)
    return fence + '\n' + ''.join(reading(chance) for _ in range(chance.randint(least, most))) + fence + '\n'


def prose(chance):
    """A part of a note with few marks: mostly paragraphs, at times steps, items, a remark or a small capture."""
    def rare(word):
        return chance.choice((f'`{word}`', f'<{word}>')) if chance.random() < 0.01 else word

    kind = chance.randrange(20)
    if kind < 2:
        return ''.join(f'{n}. {lines(chance, 1, 1, rare)}' for n in range(1, chance.randint(3, 6))) + '\n'
    if kind == 2:
        return ''.join(f'{chance.choice("-*+")} {lines(chance, 1, 1, rare)}' for _ in range(chance.randint(2, 5))) + '\n'
    if kind == 3:
        return f'> {lines(chance, 1, 1, rare)}\n'
    if kind == 4:
        return capture(chance, 4, 12) + '\n'
    return lines(chance, 3, 8, rare) + '\n'


def dense(chance):
    """A part of which every other word has marks, closed or not, escaped or not; short fences and items between."""
    def marked(word):
        return chance.choice((word, f'`{word}`', f'`{word}`', f'<{word}>', f'<{word}>', f'``{word}``', f'\\`{word}', f'`{word}',
                              f'<{word}', f'{word}>', f'-{word}', f'{word}.'))

    kind = chance.randrange(6)
    if kind == 0:
        return capture(chance, 0, 3)
    if kind == 1:
        return ''.join(f'{chance.choice(("-", "*", "  +", "7.", "12)"))} {lines(chance, 1, 1, marked)}' for _ in range(4))
    if kind == 2:
        return f'> {lines(chance, 1, 1, marked)}'
    return lines(chance, 1, 5, marked) + '\n'


def captures(chance):
    """A paragraph, and a capture of thousands of lines between backticks, which the row `fences` looks for."""
    return lines(chance, 1, 3) + '\n' + capture(chance, 2000, 6000, ('```', '````')) + '\n'


def quoted(chance):
    """Remarks quoted to changing depths, and now and then a line that isn't quoted."""
    remark = ''
    for _ in range(chance.randint(2, 6)):
        marks = chance.choice(('> ', '>')) * chance.randint(1, 4)
        remark += ''.join(marks + line for line in lines(chance, 2, 9).splitlines(keepends=True))
    return remark + chance.choice(('\n', lines(chance, 1, 1)))


def parts(chance):
    """A line of a parts list: a number of one to nine digits, and what the part is."""
    digits = chance.randint(1, 9)
    return f'{chance.randrange(10 ** (digits - 1), 10 ** digits)}{chance.choice(".)")} {" ".join(words(chance, 2, 6))}\n'


# Texts that some search might walk again and again, by what each repeats behind its head: openers that nothing closes, alone, with a pair
# between them, in items and in steps of one paragraph; openers and closers behind escapes; lines whose fence runs neither open nor close;
# blanks and digits before marks that lead nothing; line ends and marks without anything else.
HOSTILE = {
    'openers': (b'', b'<a'),
    'openers and pairs': (b'', b'<a`x` '),
    'items': (b'', b'- <a\n'),
    'steps': (b'', b'1. x <a\n'),
    'escaped openers': (b'<', b'\\\\<\\>'),
    'lone backticks': (b'`', b'a ``b ```c\n'),
    'fence lines that close nothing': (b'~~~~\n', b'~~~\n'),
    'fence lines that open nothing': (b'<', b'~~~ ~\n'),
    'blanks': (b'x', b'        -        1.'),
    'digits': (b'x', b'1234567890.'),
    'quotes': (b'', b'>'),
    'line ends': (b'', b'>\n<\n'),
}
DRAWN = {'prose': prose, 'dense': dense, 'captures': captures, 'quoted': quoted, 'parts': parts}
# Rust's release notes, in Markdown (package rustc-web), then Git's (package git).
DOCUMENTS = '/usr/share/doc/rustc-web/changelog.gz', '/usr/share/doc/git/RelNotes/*.txt'


def missing_documents():
    """Those of the documents that this machine hasn't."""
    return [pattern for pattern in DOCUMENTS if not glob.glob(pattern)]


def documents():
    """The documents one behind the other."""
    text = b''
    for pattern in DOCUMENTS:
        for path in sorted(glob.glob(pattern)):
            with (gzip.open if path.endswith('.gz') else open)(path, 'rb') as file:
                text += file.read()
    return text


def text(name, size):
    """The text of that name, cut to its size; the documents are repeated as often as it takes."""
    if name == 'documents':
        whole = documents()
        return (whole * (size // len(whole) + 1))[:size]
    if name in HOSTILE:
        head, again = HOSTILE[name]
        return (head + again * (size // len(again) + 1))[:size]
    chance, parts, length = random.Random(name), [], 0
    while length < size:
        parts.append(DRAWN[name](chance).encode())
        length += len(parts[-1])
    return b''.join(parts)[:size]
