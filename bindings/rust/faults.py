"""faults.py WORKSPACE: plants faults in a copy of what quick.py wrote, one at a time, each in another part of it: the modules, the shim for C, the
stand-ins for the kit. The tests, the tables, the stored runs of the programs or the tests in C must see each."""
import codes_of_unicode as codes, os, shutil, subprocess, sys, tempfile

workspace = os.path.abspath(sys.argv[1])
top = os.path.dirname(os.path.dirname(os.path.dirname(os.path.abspath(__file__))))
copy = os.path.join(workspace, 'faults')
target = os.path.join(workspace, 'target/faults')
made = os.path.join(target, 'checked')
PARTS = ['Cargo.toml', '.cargo', 'c', 'erased', 'parts', 'programs', 'tables', 'tests']
C_TESTS = [os.path.join(top, 'tests/c', name + '.c') for name in ('test', 'further', 'server', 'shapes', 'items', 'search', 'login')]

# A file, below erased/src/proved where it begins with a crate's name; a text of it, and the fault.
FAULTS = [
    ('pgp_frontend/values.rs', 'if count == u16::MAX {', 'if count == u16::MAX - 1 {'),
    ('pgp_base/counted.rs', '                self.failed = Some(e);\n', ''),
    ('pgp_frontend/over_bytes.rs', "message(b'Q'", "message(b'q'"),
    ('pgp_auth/scram/verify.rs', 'difference(expected, bytes) == 0', 'difference(expected, bytes) != 1'),
    ('pgp_types/network.rs', 'IPV6 => IpAddr::from(octets::<16>', 'IPV6 => IpAddr::from(octets::<4>'),
    ('pgp_auth/escape.rs', "memchr(b'\\\\', input.as_bytes())", "memchr(b'/', input.as_bytes())"),
    ('pgp_base/writing.rs', 'Ok(size as u32)', 'Ok(size as u16 as u32)'),
    ('pgp_values/numeric.rs', 'const BASE: u16 = 10_000', 'const BASE: u16 = 10_001'),
    ('pgtrace_session/table.rs', 'width.saturating_sub(part.len())', 'width.saturating_sub(part.len() + 1)'),
    ('pgtrace_session/table.rs', "    Global::push_char(text, ' ')\n", '    Ok(())\n'),
    ('for_c/inet.rs', 'if netmask as usize > 8 * address.len() {', 'if netmask as usize > 128 {'),
    ('for_c/cursor.rs', '        items[at].write(item);\n', ''),
    ('for_c/proved.rs', '    0\n', '    1\n'),
    ('pgtrace_session/run.rs', '+unproved', ''),
    ('c/src/lib.rs', '    if answer == 0 {\n        value.write(value_made);\n    }\n', '    value.write(value_made);\n'),
    ('c/src/lib.rs', 'if answer != 35 {', 'if answer == 0 {'),
    ('c/src/lib.rs', '    written.write(written_made);\n', ''),
    ('parts/src/lib.rs', '            (self.at, self.len) = (items.as_mut_ptr(), items.len());\n', ''),
    ('erased/src/kit/jiff_core.rs', 'day / 36_524', 'day / 36_525'),
    ('erased/src/kit/unassigned.rs', '0x378, 0x37a,', '0x378, 0x37b,'),
    ('erased/src/kit/clap.rs', 'Usage: ', 'Usage '),
]


def run(*words, **more):
    return subprocess.run(words, cwd=copy, env={**os.environ, 'CARGO_TARGET_DIR': target, 'RUSTFLAGS': ''}, capture_output=True, **more)


def build(package):
    done = run('cargo', 'build', '--profile', 'checked', '-p', package)
    if done.returncode:
        sys.exit(f'faults: this fault does not compile:\n{done.stderr.decode()[-3000:]}')


def as_stored(name):
    """Whether a program comes to what is stored, beside its data."""
    crate = os.path.join(top, 'crates', name)
    has = lambda part: os.path.exists(os.path.join(crate, part))
    words = open(os.path.join(crate, 'args')).read().splitlines() if has('args') else []
    with open(os.path.join(crate, 'stdin') if has('stdin') else os.devnull) as stdin:
        ran = subprocess.run([os.path.join(made, name), *words], cwd=os.path.join(crate, 'data') if has('data') else crate, stdin=stdin, capture_output=True)
    return ran.stdout == open(os.path.join(crate, 'stdout'), 'rb').read()


def tests():
    build('tests')
    return run(os.path.join(made, 'tests')).returncode == 0


def tables():
    build('tables')
    return as_stored('test_rows')


def programs():
    build('programs')
    version = open(os.path.join(top, 'VERSION')).read().strip() + '+unproved'
    return all(map(as_stored, ('pgwire', 'pgtrace', 'pgserve'))) and run(sys.executable, os.path.join(top, 'tests/programs/run.py'), made + '/%s', version).returncode == 0


def table_of_codes():
    return codes.wrong(os.path.join(copy, 'erased/src/kit/unassigned.rs')) is None


def in_c():
    build('postgres_protocol')
    with tempfile.TemporaryDirectory() as folder:
        program = os.path.join(folder, 'test')
        subprocess.run(['gcc', '-std=c99', '-DPROVED=0', '-I' + os.path.join(top, 'crates/for_c/include'), *C_TESTS, os.path.join(made, 'libpostgres_protocol.a'),
                        '-lgcc_s', '-lpthread', '-lm', '-ldl', '-o', program], check=True)
        return run(program).returncode == 0


CHECKS = [(tests, 'the tests'), (tables, 'the tables'), (programs, 'the stored runs and words'), (table_of_codes, "Python's table of codes"), (in_c, 'the tests in C')]


def place(root, file):
    return os.path.join(root, file if file.split('/')[0] in PARTS else 'erased/src/proved/' + file)


def seen(file, old, new):
    """What sees this fault: what most likely does first."""
    path = place(copy, file)
    text = open(path).read()
    with open(path, 'w') as module:
        module.write(text.replace(old, new))
    checks = sorted(CHECKS, key=lambda check: (check[0] is in_c) != file.startswith(('c/', 'parts/', 'for_c/')))
    by = next((name for check, name in checks if not check()), '')
    with open(path, 'w') as module:
        module.write(text)
    return by


if lacking := [fault for fault in FAULTS if fault[1] not in open(place(workspace, fault[0])).read()]:
    sys.exit('\n'.join(f'faults: {file} has no {old!r}' for file, old, _ in lacking))
shutil.rmtree(copy, ignore_errors=True)
os.makedirs(copy)
for part in PARTS:
    source = os.path.join(workspace, part)
    if os.path.isdir(source):
        shutil.copytree(source, os.path.join(copy, part))
    elif os.path.exists(source):
        shutil.copy(source, os.path.join(copy, part))
missed = 0
for fault in FAULTS:
    by = seen(*fault)
    missed += not by
    shown = fault[2].strip().splitlines()[0] if fault[2] else 'left out: ' + fault[1].strip()
    print(f'{fault[0]}: {shown}: {"seen by " + by if by else "NOT SEEN"}', flush=True)
shutil.rmtree(copy)
print(f'{len(FAULTS)} faults, {missed} not seen')
sys.exit(missed > 0)
