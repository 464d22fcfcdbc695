"""A look at the object code: do the searches under each entry still compare many bytes at once?"""
import platform
import re
import shutil
import subprocess
import sys

# The entries that search a text.
ENTRIES = ('rack_fence_step', 'rack_marker_step', 'rack_numbered_step', 'rack_cont_step', 'rack_build', 'rack_build_rules',
           'rack_next_in_paragraph', 'rack_find_line_end', 'rack_sheet')
# What a compiler makes of a block search: sixteen bytes compared at once, the least index of those that are equal.
COMPARE, LEAST = 'pcmpeqb', 'pminub'


def tool(name):
    """A binary utility that reads x86-64."""
    cross = f'x86_64-linux-gnu-{name}'
    found = name if platform.machine() == 'x86_64' else cross
    if not shutil.which(found):
        sys.exit(f'tools/bench: there is no {found} (Debian: binutils{"" if found == name else "-x86-64-linux-gnu"})')
    return found


def functions(archive):
    """Each function's instructions, and the functions that it calls."""
    said = subprocess.run([tool('objdump'), '-dr', '--no-show-raw-insn', archive], stdout=subprocess.PIPE, text=True, check=True)
    code, calls, name = {}, {}, None
    for line in said.stdout.splitlines():
        if begun := re.match(r'[0-9a-f]+ <(.+)>:$', line):
            name = begun.group(1)
            code[name], calls[name] = [], set()
        elif call := re.search(r'R_X86_64_(?:PLT32|PC32)\s+(.+?)(?:[-+]0x[0-9a-f]+)?$', line):
            calls[name].add(re.sub(r'^\.text\.', '', call.group(1)))
        elif said_here := re.match(r'\s*[0-9a-f]+:\s+(\S+)', line):
            code[name].append(said_here.group(1))
    return code, calls


def under(name, calls):
    """The functions that one reaches, itself among them."""
    reached, ahead = set(), [name]
    while ahead:
        at = ahead.pop()
        if at in calls and at not in reached:
            reached.add(at)
            ahead += calls[at]
    return reached


def looked_at(archive, told):
    """Tells for each entry what its searches have; whether all have something."""
    code, calls = functions(archive)
    lost = []
    for entry in ENTRIES:  # one that the archive lacks has no compares
        found = [word for f in under(entry, calls) for word in code[f]]
        told(f'{entry}: vector compares: found {found.count(COMPARE)} ({COMPARE}), {found.count(LEAST)} ({LEAST})')
        if COMPARE not in found:
            lost.append(entry)
    if lost:
        told(f'NO VECTOR COMPARES under {", ".join(lost)}: these searches go byte by byte.')
    return not lost
