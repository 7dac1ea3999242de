"""What the generator does with changed sources, in copies of them: a known change is in the package, an unknown one stops it with the place."""
import generate, os, shutil, subprocess, sys, tempfile

here = os.path.dirname(os.path.abspath(__file__))
top = os.path.dirname(os.path.dirname(here))

# A file, a text of it, what stands there instead, and what the generator says; nothing where it writes the new text.
CASES = [
    ('pgp_frontend/src/simple.rt', "b'X'", "b'Y'", ''),
    ('pgp_base/src/texts.rt', 'from_utf8_unchecked(bytes)', 'from_utf8_unchecked(&bytes[..])', 'crates/pgp_base/src/texts.rt'),
    ('pgp_base/src/walk.rt', '    final fn collect', '    fn collect', 'crates/pgp_base/src/walk.rt'),
    ('pgp_message/src/header.rt', '\nuse ', '\nuse simdutf8::is_utf8;\nuse ', 'crates/pgp_message/src/header.rt:'),
    ('pgp_types/src/time.rt', '\n{\n', '\n{\n    unsafe { core() };\n', 'crates/pgp_types/src/time.rt:'),
    ('pgp_stream/src/client_stream.rt', 'requires { self.old.opened ≡ true }', 'requires { self.old.opened ≢ false }', 'crates/pgp_stream/src/client_stream.rt:'),
    ('pgp_session/src/proxy.rt', '\nuse ', '\nuse std::alloc::Layout as Allocator;\n// left\ntype Other = Allocator;\nuse ', 'crates/pgp_session/src/proxy.rt:'),
    ('pgp_message/src/parser.rt', 'let Some(front) =', 'let Some(Front { tag, total }) =', 'crates/pgp_message/src/parser.rt'),
    ('pgp_types/src/range.rt', '\nuse ', '\nghost lemma {\nuse ', 'crates/pgp_types/src/range.rt:'),
    ('for_c/src/inet.rt', 'bytes.len()', 'bytes.len() + 0', ''),
    ('for_c/src/system.rt', 'left { result ≢ 0 →', 'left { result ≡ 35 →', 'crates/for_c/src/system.rt:'),
    ('for_c/src/dialogue.rt', 'dialogue.room = room;', 'dialogue.room = { room };', 'crates/for_c/src/dialogue.rt'),
    ('for_c/src/numeric.rt', 'pub extern "C" fn pgp_get_numeric(', 'pub unsafe extern "C" fn pgp_get_numeric(', 'crates/for_c/src/numeric.rt:'),
    ('test_rows/src/walks.rt', '!is_modest(', '!is_meek(', 'crates/test_rows/src/walks.rt'),
]


def run(case):
    file, old, new, words = case
    with tempfile.TemporaryDirectory() as copy:
        shutil.copytree(here, os.path.join(copy, 'bindings/rust'))
        for name in ('LICENSE-APACHE', 'LICENSE-MIT', 'VERSION', 'crates.txt'):
            shutil.copy(os.path.join(top, name), copy)
        for crate in os.listdir(os.path.join(top, 'crates')):
            src = os.path.join(top, 'crates', crate, 'src')
            if os.path.isdir(src):
                shutil.copytree(src, os.path.join(copy, 'crates', crate, 'src'))
        path = os.path.join(copy, 'crates', file)
        text = open(path).read()
        if old not in text:
            return f'{file} has no {old!r}'
        open(path, 'w').write(text.replace(old, new, 1))
        out = os.path.join(copy, 'out')
        crate = file.split('/')[0]
        package = 'postgres-protocol' if crate in generate.CORE else 'postgres-session'
        program, below = ('generate.py', f'{package}/src/proved') if crate in generate.CORE + generate.MORE else ('quick.py', 'erased/src/proved')
        made = subprocess.run([sys.executable, '-B', os.path.join(copy, 'bindings/rust', program), out], capture_output=True, text=True)
        if words:
            return '' if made.returncode == 1 and words in made.stderr else f'{file}: {new!r} went through: {made.stderr}'
        module = os.path.join(out, below, file.replace('/src/', '/')[:-3] + '.rs')
        return '' if made.returncode == 0 and new in open(module).read() else f'{file}: {new!r} is not in the package: {made.stderr}'


wrong = [said for said in map(run, CASES) if said]
print('\n'.join(wrong) or f'the generator: {len(CASES)} changed sources')
sys.exit(bool(wrong))
