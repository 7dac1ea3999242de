"""The tests of tests/rust and of crates, as one crate over the generated modules: of the crates' all but those that need an allocator of their own or
a law, and what calls these."""
import os, re
import generate
from asking import answering
from erase import Unknown, erase
from rules import without_let_else

CRATES = ['test_alloc', 'pgp_uses']
# The program that tries tables.
TABLES = ['test_rows']
# Where something stays that calls what doesn't: file, text, its substitute.
CALLS = {
    ('test_rows', 'codec.rt'): ('    grows::<C>(case, out)\n', '    Ok(())\n'),
    ('test_rows', 'connection.rt'): ('with_each_failing(&list, row.right, out)', 'Ok(())'),
    ('test_rows', 'server.rt'): ('    with_each_failing(bytes, wanted, out)?;\n', ''),
    ('test_rows', 'value_text.rt'): ('if !is_refused(alloc, type_oid, bytes, number, out)', 'if number == 1'),
    ('test_rows', 'walks.rt'): ('!is_modest(', '!is_collected('),
}
LEFT_OUT = re.compile(r'\b(?:Refusing|LocalHeap|linked_list_allocator|laws)\b')
ITEM = re.compile(r'\n\n(?=\S)')
NAMED = re.compile(r'^(?:pub(?:\([\w:]+\))? )?(?:const |unsafe )*(?:fn|const|static|struct|enum|trait|type|macro_rules!) (\w+)', re.M)
LAW = re.compile(r'^ *(?:\w+::)*laws::\w+(?:::<[^>]*>)?\([^;]*\);\n', re.M)
# Of its laws some are calls, which tests make; the module gets another name, since a law as such is no code.
OF_CALLS = 'postgres_protocol'
LIB = '''//! %s over the modules without their contracts.
#![allow(unused, clippy::all)]
use erased::kit;

pub mod proved {
    pub use erased::proved::*;
%s}
'''


USE = re.compile(r'(?:pub )?use |(?:#\[cfg\(test\)\]\n)?(?:pub )?mod \w+;')


def any_of(words):
    return re.compile(r'\b(?:%s)\b' % '|'.join(sorted(words) or ['(?!)']))


def apart(modules):
    """The modules without what is left out and what names that, and how many tests go with it. A name counts where it is defined or imported."""
    items = {name: ITEM.split(text) for name, text in modules.items()}
    uses = {name: ' '.join(part for part in parts if USE.match(part)) for name, parts in items.items()}
    gone = {name: {word for words in re.findall(r'\blaws::([^;]*);', text) for word in re.findall(r'\w+', words)} for name, text in uses.items()}
    count, before = 0, None
    while before != gone:
        before = {name: set(words) for name, words in gone.items()}
        everywhere = set().union(*gone.values())
        for name, parts in items.items():
            gone[name] |= {word for word in everywhere if re.search(rf'\b{word}\b', uses[name])}
            words = any_of(gone[name])
            is_out = lambda part: not USE.match(part) and (LEFT_OUT.search(code := re.sub(r'//.*', '', part)) or words.search(code))
            for part in filter(is_out, parts):
                count += part.count('#[test]')
                gone[name] |= set(NAMED.findall(part))
            items[name] = [part for part in parts if not is_out(part)]
    for name, parts in items.items():
        lone = re.compile(r'\b(?:%s)\b(?:, )?' % '|'.join(sorted(gone[name] | {'Refusing'})))
        parts = [re.sub(r'^use [^;]*;', lambda m: lone.sub('', m[0]), part, flags=re.M) if USE.match(part) else part for part in parts]
        items[name] = re.sub(r'^use (?:linked_list_allocator|[\w:]*\blaws)::[^;]*;\n|^use [\w:]*(?:\{\s*\}|::);\n', '', '\n\n'.join(parts), flags=re.M)
    return items, count


def without_laws(crate, name):
    text = LAW.sub('', erase(open(os.path.join(generate.top, 'crates', crate, 'src', name)).read()))
    old, new = CALLS.get((crate, name), ('', ''))
    if old and text.count(old) != 1:
        raise Unknown(f'crates/{crate}/src/{name}: {text.count(old)} times, not 1: {old.strip()}')
    text = text.replace(old, new) if old else text
    return text.replace(OF_CALLS + '::laws', OF_CALLS + '::lawful')


def lawful(used):
    """The modules of the laws that are calls, by their paths."""
    others = re.compile(r'(?!laws\b)')
    for name in generate.sources(OF_CALLS, others):
        text = generate.checked(without_laws(OF_CALLS, name).replace('crate::laws', 'crate::lawful'), OF_CALLS, name, used, others)
        yield f'{OF_CALLS}/{name.replace("laws", "lawful")[:-3]}.rs', text


TEST = re.compile(r'#\[test\]\n(?=fn (\w+)\(\))')


def plain(text, crate):
    return re.sub(r'^mod ', 'pub mod ', answering(text, crate), flags=re.M)


def crate_of(crates, out, what, used):
    """Writes a crate of these, and returns how many tests are left out."""
    read = {(crate, name): without_laws(crate, name) for crate in crates for name in generate.sources(crate)}
    texts, lacks = apart(read)
    for (crate, name), text in texts.items():
        path = 'mod.rs' if name in ('lib.rt', 'main.rt') else name[:-3] + '.rs'
        if '#[test]' in text:
            raise Unknown(f'crates/{crate}/src/{name}: a test that could stand in tests/rust')
        generate.write(os.path.join(out, 'src/proved', crate, path), generate.checked(plain(text, crate), crate, name, used))
    generate.write(os.path.join(out, 'src/lib.rs'), LIB % (what, ''.join(f'    pub mod {crate};\n' for crate in crates)))
    return lacks


def files(top):
    return sorted(os.path.relpath(os.path.join(folder, name), top) for folder, _, names in os.walk(top) for name in names)


def program(out):
    """Writes the program that runs the tests of tests/rust, and returns how many it has."""
    top = os.path.join(generate.top, 'tests/rust')
    tests = []
    for name in files(top):
        with open(os.path.join(top, name)) as file:
            text = file.read()
        path = name[:-3].replace('/', '::')
        found = TEST.findall(text)
        if len(found) != text.count('#[test]'):
            raise Unknown(f'tests/rust/{name}: a test of another form')
        tests += [f'{path}::{test}' for test in found]
        text = re.sub(r'^mod ', 'pub mod ', TEST.sub('pub ', text), flags=re.M)
        generate.write(os.path.join(out, 'src', name), without_let_else(text))
    calls = ''.join(f'    ("{test}", || Ended::ended({test}())),\n' for test in tests)
    with open(os.path.join(out, 'src/main.rs'), 'a') as file:
        file.write(f'\nconst TESTS: [(&str, fn()); {len(tests)}] = [\n{calls}];\n')
    return len(tests)
