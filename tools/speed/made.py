"""What the benchmark runs, and how it is made: the panel's archives, and the program over both sides."""
import hashlib
import pathlib
import platform
import re
import shutil
import subprocess
import sys

TOP = pathlib.Path(__file__).resolve().parents[2]
SPEED = TOP / 'tools/speed'
WORK = TOP / 'target/bench'

IS_X86 = platform.machine() == 'x86_64'
X86 = 'x86_64-unknown-linux-gnu'
# Every x86-64, as tools/archive names it.
PLAIN = 'x86_64'


def fail(why):
    print(f'tools/bench: {why}', file=sys.stderr)
    sys.exit(2)


def run(command, why, **more):
    """A command's output; where it fails, why this run can't go on."""
    try:
        return subprocess.run(list(map(str, command)), check=True, stdout=subprocess.PIPE, text=True, **more).stdout
    except (OSError, subprocess.CalledProcessError):
        fail(why)


def kit():
    """The folder of the Rattle kit's compiler and emulator."""
    return pathlib.Path(run([TOP / 'tools/kit'], 'the Rattle kit is missing').strip())


def library(processor):
    """The panel's archive for a processor, as tools/archive names it."""
    return pathlib.Path(run([TOP / 'tools/archive', '--processor', processor], f'no library for {processor}').splitlines()[0])


def counter():
    """The emulator's plugin."""
    made = WORK / 'count.so'
    run(['cc', '-std=c11', '-O2', '-Wall', '-Wextra', '-Werror', '-shared', '-fPIC', '-o', made, SPEED / 'count.c'],
        'the counting plugin could not be compiled')
    return made


class Rust:
    """The Rust of meon, its memchr, and the compiler."""

    def __init__(self, rustc, source, memchr):
        self.rustc, self.source, self.memchr = rustc, source, memchr
        if not (source / 'span.rs').is_file():
            fail(f'no Rust source: {source} is absent (give --source DIR)')
        if not (memchr / 'src/lib.rs').is_file():
            fail(f'no memchr: {memchr} is absent (give --memchr DIR)')
        self.compiler = run([rustc, '--version'], f'there is no {rustc} (Debian: rustc-web)').strip()

    def memchr_version(self):
        found = re.search(r'^version *= *"(\d+)\.(\d+)', (self.memchr / 'Cargo.toml').read_text(), re.M)
        return tuple(map(int, found.groups()))

    def program(self, processor, ours, is_x86=True):
        """The program over both sides, the Rust compiled for that processor, with ours linked in; made where anything that it is
        made of has changed."""
        folder = WORK / processor
        made, stamp = folder / 'bench', folder / 'made_from'
        files = sorted(f for d in (self.source, self.memchr / 'src', SPEED / 'src') for f in d.rglob('*.rs'))
        sums = [hashlib.sha256(f.read_bytes()).hexdigest() for f in (*files, ours, pathlib.Path(__file__))]
        key = repr((sums, self.compiler))
        if not made.exists() or not stamp.exists() or stamp.read_text() != key:
            folder.mkdir(parents=True, exist_ok=True)
            self.build(folder, processor, ours, is_x86)
            stamp.write_text(key)
        return made

    def build(self, folder, processor, ours, is_x86):
        flags = ['-Copt-level=3', '-Ccodegen-units=1', '--edition=2021', '-L', f'dependency={folder}']
        if is_x86 and processor != PLAIN:
            flags += [f'-Ctarget-cpu={processor}']
        if is_x86 and not IS_X86:
            flags += ['--target', X86, '-Clinker=x86_64-linux-gnu-gcc']

        def compiled(crate, root, *words):
            run([self.rustc, *flags, '--crate-name', crate, *words, root], f'{crate} could not be compiled by {self.rustc}')

        library = '--crate-type=rlib', '--cap-lints=allow', '-o'
        memchr, meon = folder / 'libmemchr.rlib', folder / 'libmeon.rlib'
        features = ['--cfg=feature="alloc"', '--cfg=feature="std"']
        if is_x86 and self.memchr_version() < (2, 6):  # whose build script, which isn't run here, turns on the vector code
            features += [f'--cfg=memchr_runtime_{word}' for word in ('simd', 'sse2', 'sse42', 'avx')]
        compiled('memchr', self.memchr / 'src/lib.rs', *features, *library, memchr)
        compiled('meon', self.copied(folder / 'copy'), '--extern', f'memchr={memchr}', *library, meon)
        compiled('bench', SPEED / 'src/main.rs', '--extern', f'meon={meon}', f'-Clink-arg={ours}', '-o', folder / 'bench')

    def copied(self, copy):
        """The root over copies of meon's files, which stand where they stand in meon, as tools/oracle/build has it."""
        shutil.rmtree(copy, ignore_errors=True)
        standalone = 'engine/text_parser/standalone'
        (copy / standalone).mkdir(parents=True)
        names = 'fence', 'block_marker', 'block_numbered', 'cont', 'context', 'common'
        for name in ('span', 'swar', *(f'{standalone}/{n}' for n in names)):
            (copy / f'{name}.rs').write_bytes((self.source / f'{name}.rs').read_bytes())
        (copy / 'lib.rs').write_bytes((TOP / 'tools/oracle/src/meon.rs').read_bytes())
        return copy / 'lib.rs'
