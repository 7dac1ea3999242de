"""generate.py OUT: the Cargo packages OUT/postgres-protocol and OUT/postgres-session: the `.rt` sources without their contracts, at the global
allocator, as modules over kit/ and under adapter/ and session/. A construct that no rule knows stops it with the place."""
import os, re, shutil, sys
from conditions import asserted
from erase import Unknown, erase, is_part
from rules import PLACES, fit, leftovers, without_idle_prelude

here = os.path.dirname(os.path.abspath(__file__))
top = os.path.dirname(os.path.dirname(here))


def below(*tops):
    """The crates of this repository that these stand on, after crates.txt, in its order."""
    with open(os.path.join(top, 'crates.txt')) as file:
        uses = {m[1]: m[2].split() for m in re.finditer(r'^(\w+)(?: staticlib)?:(.*)$', file.read(), re.M)}
    found, more = set(), set(tops)
    while more:
        found |= more
        more = {dep for name in more for dep in uses[name] if dep in uses} - found
    return [name for name in uses if name in found - set(tops)]


# What the API of the Rust crate stands on; the rest is the package postgres-session.
CORE = ['pgp_base', 'pgp_frontend', 'pgp_message', 'pgp_types', 'pgp_auth', 'pgp_saslprep']
MORE = [name for name in below('postgres_protocol') if name not in CORE]
# Whose calls the packages show as they are, so that their conditions are assertions.
SHOWN = {'pgp_auth', 'pgp_saslprep', *MORE}
# The crates that a `use` may name; else it names a module.
NAMES = set(CORE + MORE) | {'test_rows', 'postgres_protocol', 'std', 'crate', 'bytes', 'self', 'super'}
HEAD = '//! The generated modules: the proved sources without their contracts. Change the sources, not these.\n'
LEFT_OUT = re.compile(r'^(laws|memory|scanning|tests)(/|\.rt$)')


def sources(crate, without=LEFT_OUT):
    """The names of a crate's files below `src`."""
    root = os.path.join(top, 'crates', crate, 'src')
    for folder, _, files in sorted(os.walk(root)):
        for file in sorted(files):
            name = os.path.relpath(os.path.join(folder, file), root)
            if file.endswith('.rt') and not without.match(name):
                yield name


def place(source, line):
    """The number of the source's line that has this text, or none."""
    return next((f':{i}' for i, have in enumerate(source.split('\n'), 1) if line in have), '')


def module(crate, name, used, before=None):
    path = os.path.join('crates', crate, 'src', name)
    source = open(os.path.join(top, path)).read()
    erased = erase(source)
    if not is_part(erased, source):
        raise Unknown(f'{path}: what stays is no part of the source')
    if before is asserted and crate in SHOWN:
        erased = asserted(erased, crate, name, source)
    elif before and before is not asserted:
        erased = before(erased, crate)
    return checked(erased, crate, name, used)


def checked(erased, crate, name, used, without=LEFT_OUT):
    """The module of an erased text, in which no construct is left that no rule knows."""
    path = os.path.join('crates', crate, 'src', name)
    source = open(os.path.join(top, path)).read()
    text = fit(erased, crate, f'{crate}/{name[:-3]}', used)
    for line, why in leftovers(text, {os.path.basename(n)[:-3] for n in sources(crate, without)}):
        raise Unknown(f'{path}{place(source, line)}: no rule for `{why}`: {line}')
    return without_idle_prelude(text) if crate in CORE + MORE else text


def write(path, text):
    os.makedirs(os.path.dirname(path), exist_ok=True)
    with open(path, 'w') as file:
        file.write(text)


def modules(crates, used, before=None):
    """The texts of these crates' modules, by their paths below `proved`; `before` is applied where contracts are gone and nothing else."""
    names = lambda crate: ((name, 'mod.rs' if name in ('lib.rt', 'main.rt') else name[:-3] + '.rs') for name in sources(crate))
    return {f'{crate}/{path}': module(crate, name, used, before) for crate in crates for name, path in names(crate)}


def all_used(used, crates):
    for i, (file, _, old, _) in enumerate(PLACES):
        if i not in used and file.split('/')[0] in crates:
            raise Unknown(f'crates/{file.replace("/", "/src/", 1)}.rt: no such file: {old}')


def package(out, adapter, texts, mods):
    """A package of what is by hand in this folder, and of these modules below `proved`, which has these lines."""
    shutil.rmtree(os.path.join(out, 'src'), ignore_errors=True)
    shutil.copytree(os.path.join(here, adapter), out, dirs_exist_ok=True)
    for name, text in texts.items():
        write(os.path.join(out, 'src/proved', name), text)
    with open(os.path.join(here, 'lints.rs')) as file:
        write(os.path.join(out, 'src/proved/mod.rs'), HEAD + file.read() + mods)
    for licence in ('LICENSE-APACHE', 'LICENSE-MIT'):
        shutil.copy(os.path.join(top, licence), out)


def generate(out):
    used = set()
    core, more = (modules(crates, used, asserted) for crates in (CORE, MORE))
    all_used(used, CORE + MORE)
    lines = lambda crates: ''.join(f'pub mod {crate};\n' for crate in crates)
    protocol = os.path.join(out, 'postgres-protocol')
    package(protocol, 'adapter', core, lines(CORE))
    shutil.copytree(os.path.join(here, 'kit'), os.path.join(protocol, 'src/kit'), dirs_exist_ok=True)
    package(os.path.join(out, 'postgres-session'), 'session', more, f'\npub use postgres_protocol::proved::{{{", ".join(CORE)}}};\n' + lines(MORE))
    texts = core | more
    return sum(text.count('\n') for text in texts.values()), len(texts)


if __name__ == '__main__':
    try:
        lines, files = generate(sys.argv[1])
    except Unknown as e:
        sys.exit(f'rust: {e}')
    print(f'{sys.argv[1]}: postgres-protocol and postgres-session, {files} modules, {lines} lines')
