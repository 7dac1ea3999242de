"""run.py PLACE VERSION [refused]: runs programs on the runs that are stored here (NAME.runs of the program NAME) and on those that crates/pgtrace/expected
works out of its tables, and compares what each comes to: its output, what it says on standard error, and its status. PLACE has `%s` where the name stands.
With `refused` they are run with one request of memory refused, each of the first 32 in turn and then fewer, but not on a terminal: a front of the output is
written and the lack is reported, or the run ends as ever, where room was asked for ahead. (For programs of Rattle's compilers: Rust's own `std` aborts.)

A file of runs has blocks, a word at the front of each, with lines of four spaces under it; a line that begins with `#` is a comment:
    bytes NAME     bytes that have a name, over lines: `\\0`, `\\n`, `\\\\` and `\\x` with two digits stand for a byte, and `*N ` at the front of a line for N times
    text NAME      lines that have a name, as they are
    run WORDS      a run on these words, as a shell reads them, with `\\x` as above; what stands under it is the output. `terminal run`: on a terminal
    word NAME      one more word, which has a name
    input BYTES    what it reads; {NAME}, {NAME[1:]} and {NAME[:9]} stand for bytes that have a name, or a part of them
    file F BYTES   a file that lies where it runs, written like an input
    output NAME, error NAME, status N     the output by its name; what is said on standard error, and the status, where there are such
{VERSION} in a line stands for the version.
"""
import functools
import os
import pty
import re
import shlex
import subprocess
import sys
import tempfile
import tty

HERE = os.path.dirname(os.path.abspath(__file__))
sys.path.insert(0, os.path.join(HERE, '../../crates/pgtrace/expected'))
sys.dont_write_bytecode = True
import client  # noqa: E402
import objects  # noqa: E402

ESCAPE = re.compile(rb'\\(?:(0)|(n)|(\\)|x([0-9a-f]{2}))')
PART = re.compile(rb'\{(\w+)(?:\[(\d*):(-?\d*)\])?\}')


def unescaped(line):
    return ESCAPE.sub(lambda m: b'\0' if m[1] else b'\n' if m[2] else b'\\' if m[3] else bytes.fromhex(m[4].decode()), line)


def many(line):
    times = re.match(rb'\*(\d+) ', line)
    return unescaped(line[times.end():]) * int(times[1]) if times else unescaped(line)


class Run:
    def __init__(self, words, is_terminal=False, given=b'', output=b''):
        self.words, self.is_terminal, self.given, self.output, self.error, self.status, self.files = words, is_terminal, given, output, b'', 0, {}

    def wanted(self):
        return self.output, self.error, self.status

    def comes_to(self, program, **more):
        if not self.files:
            return self.comes_there(program, cwd=None, **more)
        with tempfile.TemporaryDirectory() as place:
            for name, given in self.files.items():
                with open(os.path.join(os.fsencode(place), name), 'wb') as file:
                    file.write(given)
            return self.comes_there(program, cwd=place, **more)

    def comes_there(self, program, **more):
        shown = {'stdout': subprocess.PIPE}
        if self.is_terminal:
            ours, theirs = pty.openpty()
            tty.setraw(theirs)
            shown = {'stdout': theirs}
        ran = subprocess.Popen([program, *self.words], stdin=subprocess.PIPE, stderr=subprocess.PIPE, **shown, **more)
        if not self.is_terminal:
            return (*ran.communicate(self.given, timeout=60), ran.wait())
        # (what is shown there is less than what a terminal holds)
        error = ran.communicate(self.given, timeout=60)[1]
        os.close(theirs)
        shown = b''
        try:
            while piece := os.read(ours, 65536):
                shown += piece
        except OSError:
            pass
        os.close(ours)
        return shown, error, ran.wait()


def blocks(path):
    """Each block: its line, and the lines under it."""
    found = []
    with open(path, 'rb') as file:
        for line in file.read().split(b'\n'):
            if line.startswith(b'    '):
                found[-1][1].append(line[4:])
            elif line and not line.startswith(b'#'):
                found.append((line, []))
    return found


def stored(path, version):
    named, runs = {}, []

    def part(m):
        whole = named[m[1]]
        return whole[int(m[2] or 0):int(m[3] or len(whole))]

    def joined(text):
        return b''.join(part(PART.fullmatch(it)) if it.startswith(b'{') else unescaped(it) for it in re.split(rb'(\{[^}]*\})', text))
    for line, under in blocks(path):
        word, _, rest = line.partition(b' ')
        lines = b''.join(line.replace(b'{VERSION}', version.encode()) + b'\n' for line in under)
        if word == b'bytes':
            named[rest] = b''.join(map(many, under))
        elif word == b'text':
            named[rest] = lines
        elif word in (b'run', b'terminal'):
            words = [unescaped(os.fsencode(it)) if '\\x' in it else os.fsencode(it) for it in shlex.split(os.fsdecode(rest.removeprefix(b'run')))]
            runs.append(Run(words, word == b'terminal', output=lines))
        elif word == b'word':
            runs[-1].words.append(named[rest])
        elif word == b'input':
            runs[-1].given = joined(rest)
        elif word == b'file':
            name, _, rest = rest.partition(b' ')
            runs[-1].files[name] = joined(rest)
        elif word in (b'output', b'error'):
            setattr(runs[-1], word.decode(), named[rest])
        elif word == b'status':
            runs[-1].status = int(rest)
        else:
            raise SystemExit('%s: %r' % (path, line))
        if word in (b'output', b'error', b'status', b'input', b'word', b'file'):
            runs[-1].output += lines
    return runs


def runs_of(version):
    """Each run, and its program's name."""
    for name in sorted(it[:-5] for it in os.listdir(HERE) if it.endswith('.runs')):
        runs = stored(os.path.join(HERE, name + '.runs'), version)
        if name == 'pgtrace':
            runs += [Run(words, given=given, output=output) for words, given, output in client.runs() + objects.runs()]
        for run in runs:
            yield name, run


def outcomes(name, run, program):
    """What a run comes to, and whether that is as it has to be."""
    came = run.comes_to(program)
    yield came, came == run.wanted()


def refused(library, name, run, program):
    """The same where a request of memory is refused: each of the first 32, and then ever fewer."""
    number, is_refused = 1, True
    while is_refused and not run.is_terminal:
        told, tells = os.pipe()
        came = run.comes_to(program, env={**os.environ, 'LD_PRELOAD': library, 'REFUSED': str(number), 'REFUSED_TO': str(tells)}, pass_fds=[tells])
        os.close(tells)
        is_refused = os.read(told, 1) == b'!'
        os.close(told)
        lacks = came[1:] == (b'%s: out of memory\n' % name.encode(), 1)
        yield came, came == run.wanted() or is_refused and lacks and run.output.startswith(came[0])
        number += 1 + number // 32


def main(place, version, kind='plain'):
    passed = failed = 0
    with tempfile.TemporaryDirectory() as room:
        tried = outcomes
        if kind == 'refused':
            library = os.path.join(room, 'refuse.so')
            subprocess.run(['cc', '-shared', '-fPIC', '-o', library, os.path.join(HERE, 'refuse.c')], check=True)
            tried = functools.partial(refused, library)
        for name, run in runs_of(version):
            for came, is_well in tried(name, run, os.path.abspath(place.replace('%s', name))):
                passed += bool(is_well)
                failed += not is_well
                if not is_well:
                    print('FAIL %s %s, on %r:\n%s\nnot\n%s' % (name, b' '.join(run.words)[:200], run.given[:200], *(it[0].decode(errors='replace')[:2000] + repr(it[1:])[:500] for it in (came, run.wanted()))))
    print('%d passed, %d failed' % (passed, failed))
    sys.exit(failed != 0)


main(*sys.argv[1:])
