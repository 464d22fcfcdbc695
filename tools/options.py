"""How the tools in Python read their options. A tool's own docstring is its help."""
import sys


def refuse(tool, why):
    """Ends the tool with one line on standard error."""
    print(f'{tool}: {why}', file=sys.stderr)
    sys.exit(2)


def options_of(tool, doc, valued=(), flags=(), words=0):
    """The options with a word behind them, by name; the one of the flags that was given, or none; up to so many other words."""
    given, flag, others, rest = {}, None, [], sys.argv[1:]
    while rest:
        word, *rest = rest
        if word in ('-h', '--help'):
            print(doc, end='')
            sys.exit(0)
        if word in valued:
            if not rest:
                refuse(tool, f'{word} wants a word behind it; --help tells the options')
            given[word], *rest = rest
        elif word in flags and flag in (None, word):
            flag = word
        elif word in flags:
            refuse(tool, f'{flag} and {word} exclude each other')
        elif word.startswith('-'):
            refuse(tool, f'unknown option {word}; --help tells the options')
        elif len(others) == words:
            refuse(tool, f'{word} is one word too many; --help tells the use')
        else:
            others.append(word)
    return given, flag, others
