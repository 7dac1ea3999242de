"""quick.py OUT: a Cargo workspace of the library for C and of the programs, over the generated modules: nothing of it is proved."""
import filecmp, os, re, shutil, sys, tempfile
import cases, exports, generate
from asking import answering
from erase import Unknown

PROGRAMS = ['pgwire', 'pgtrace', 'pgserve']
BELOW = [name for name in generate.below(*PROGRAMS) if name not in generate.CORE + generate.MORE]
MAIN = 'fn main() -> impl std::process::Termination {\n    %s::proved::%s::main(erased::kit::host::HostRuntime)\n}\n'


def kit(root):
    """The kit of `make rust`, and what these crates call beside that."""
    shutil.copytree(os.path.join(generate.here, 'kit'), root)
    shutil.copytree(os.path.join(generate.here, 'quick/kit'), root, dirs_exist_ok=True)
    names = lambda name: {file[:-3] for file in os.listdir(os.path.join(generate.here, name))}
    more = sorted(names('quick/kit') - names('kit'))
    with open(os.path.join(root, 'mod.rs')) as file:
        text = file.read().replace('pub mod prelude {\n', 'pub mod prelude {\n    pub use super::{calls::*, host::{AllocGlobal, HostRuntime, Print}, newer::*};\n', 1)
    # (what a test has refused, it says there)
    text = text.replace('\nmod asking;', '\npub mod asking;', 1)
    generate.write(os.path.join(root, 'mod.rs'), text + ''.join(f'pub mod {name};\n' for name in more))


def workspace(out):
    used = set()
    texts = generate.modules(generate.CORE + generate.MORE + BELOW, used)
    texts |= generate.modules(exports.CRATES, used, exports.plain)
    texts |= generate.modules(PROGRAMS, used, answering)
    texts |= cases.lawful(used)
    texts['postgres_protocol/mod.rs'] += 'pub mod lawful;\n'
    crates = sorted({name.split('/')[0] for name in texts})
    shutil.copytree(os.path.join(generate.here, 'quick'), out, ignore=shutil.ignore_patterns('kit'))
    root = os.path.join(out, 'erased/src')
    kit(os.path.join(root, 'kit'))
    for name, text in texts.items():
        # (a function that may be inlined is compiled once more for each program)
        generate.write(os.path.join(root, 'proved', name), re.sub(r'^ *#\[inline\]\n', '', text, flags=re.M))
    generate.write(os.path.join(root, 'proved/mod.rs'), generate.HEAD + ''.join(f'pub mod {crate};\n' for crate in crates))
    shim, count = exports.shims()
    generate.write(os.path.join(out, 'c/src/lib.rs'), shim)
    for name in PROGRAMS:
        generate.write(os.path.join(out, f'programs/src/bin/{name}.rs'), MAIN % ('erased', name))
    lacks = cases.crate_of(cases.CRATES, os.path.join(out, 'tests'), 'Tests', used)
    tests = cases.program(os.path.join(out, 'tests'))
    cases.crate_of(cases.TABLES, os.path.join(out, 'tables'), 'Tables', used)
    for name in cases.TABLES:
        generate.write(os.path.join(out, f'tables/src/bin/{name}.rs'), MAIN % ('tables', name))
    generate.all_used(used, crates + cases.CRATES + cases.TABLES)
    return len(texts), sum(text.count('\n') for text in texts.values()), count, tests, lacks


def put(new, out):
    """Puts the files there, each only where it is another one, so that Cargo compiles no more than that."""
    kept = {name for name in cases.files(out) if name.split('/')[0] in os.listdir(new)}
    for name in cases.files(new):
        place = os.path.join(out, name)
        if name not in kept or not filecmp.cmp(os.path.join(new, name), place, shallow=False):
            os.makedirs(os.path.dirname(place), exist_ok=True)
            shutil.copyfile(os.path.join(new, name), place)
    for name in kept.difference(cases.files(new)):
        os.remove(os.path.join(out, name))


if __name__ == '__main__':
    try:
        with tempfile.TemporaryDirectory() as new:
            modules, lines, count, has, lacks = workspace(os.path.join(new, 'quick'))
            put(os.path.join(new, 'quick'), sys.argv[1])
    except Unknown as e:
        sys.exit(f'quick: {e}')
    print(f'{sys.argv[1]}: {modules} modules, {lines} lines, {count} functions for C, {has} tests ({lacks} left out); nothing of it is proved')
