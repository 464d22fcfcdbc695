#!/usr/bin/env python3
"""What host/example.c does, from Python: the regions and the work sheet of a note; an edit, its regions amended, and the sheet anew.

usage: host/example.py LIBRARY    (target/lib/native/librack.so)
"""
import ctypes
import struct
import sys

FRONT = b'1. Oil the wiper shaft\n\n'
CAPTURE = b'~~~ pulses\n2. 0.38 mm\n~~~\n\n'
REPLACEMENT = b'- Count `K7` again\n\n~~~ pulses\n2. 0.41 mm\n3. 0.40 mm\n~~~\n\n'
BACK = b'4) Bend the upper spring\n'
REGION, ITEM = 8, 20


def runs(*all_bytes):
    """Each run as its pointer and its length."""
    return [part for run in all_bytes for part in (ctypes.c_char_p(run), ctypes.c_size_t(len(run)))]


# The house grammar (include/rack.h): its bytes, its rules in columns, and the sets of markers and delimiters.
BYTES = [ctypes.c_uint8(byte) for byte in b'\n\\ \t']
RULES = runs(b'`~', b'\3\3', b'`', b'\1\0\0\0', b'<', b'>', b'\1\0\0\0')
SETS = runs(b'-*+', b'.)')


def filled(entry, *words, size, room):
    """What an entry writes to a list of so many entries, `size` bytes each."""
    out, answer = ctypes.create_string_buffer(size * room), ctypes.create_string_buffer(8)
    refusal = entry(*words, out, ctypes.c_size_t(len(out)), answer, ctypes.c_size_t(len(answer)))
    if refusal:
        sys.exit(f'refused: {refusal}')
    _, count = struct.unpack('<II', answer.raw)
    return out.raw[:size * count]


def listed(regions):
    """A list as its run and how many regions it has."""
    return [*runs(regions), ctypes.c_uint32(len(regions) // REGION)]


def build(rack, text):
    return filled(rack.rack_build, *runs(text), *BYTES, *RULES, size=REGION, room=len(text) // 2 + 1)


def amend(rack, old, regions, first, second, text):
    return filled(rack.rack_amend, *runs(old), *listed(regions), ctypes.c_size_t(first), ctypes.c_size_t(second), *runs(text),
                  *BYTES, *RULES, size=REGION, room=len(regions) // REGION + len(text) // 2 + 1)


def print_sheet(rack, text, regions):
    sheet = filled(rack.rack_sheet_listed, *runs(text), *BYTES, *SETS, *listed(regions), size=ITEM, room=len(text))
    print(f'regions: {len(regions) // REGION}, items: {len(sheet) // ITEM}')
    for start, end, kind, byte, number in struct.iter_unpack('<5I', sheet):
        print(f'{number if kind else ""}{chr(byte)} {text[start:end].decode()}')


def main():
    if len(sys.argv) != 2:
        print(__doc__, end='', file=sys.stderr)
        return 2
    rack = ctypes.CDLL(sys.argv[1])
    old, edited = FRONT + CAPTURE + BACK, FRONT + REPLACEMENT + BACK
    regions = build(rack, old)
    print_sheet(rack, old, regions)
    amended = amend(rack, old, regions, len(FRONT), len(FRONT + CAPTURE), REPLACEMENT)
    print('amended as built afresh' if amended == build(rack, edited) else 'amended otherwise than built afresh')
    print_sheet(rack, edited, amended)
    return 0


if __name__ == '__main__':
    sys.exit(main())
