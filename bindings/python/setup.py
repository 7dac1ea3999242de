"""The extension, and the library whose calls it makes. `scripts/wheel` puts a built one, with what else is wanted, into one folder. An sdist has its
sources, which are not proved (`rust`), and a checkout makes these by bindings/rust/quick.py: cargo and a C compiler build them."""
import atexit
import os
import re
import shutil
import subprocess
import sys
from pathlib import Path

from setuptools import Extension, setup
from setuptools.command.sdist import sdist

try:
    from setuptools.command.build import build
except ImportError:  # before setuptools 62.4
    from distutils.command.build import build

HERE = Path(__file__).resolve().parent
# In a checkout what an sdist has beside it stands elsewhere.
TOP = None if (HERE / 'VERSION').exists() else HERE.parent.parent
HEADERS = TOP / 'crates/for_c/include' if TOP else HERE / 'include'
README = TOP / 'docs/PYTHON.md' if TOP else HERE / 'README.md'
VERSION = ((TOP or HERE) / 'VERSION').read_text().strip() + ('+unproved' if TOP else '')
LICENCES = ['LICENSE-APACHE', 'LICENSE-MIT']
LIBRARY = HERE / 'postgres_protocol/libpostgres_protocol.so.0'
# What of the workspace of `make quick` the library is made of.
PARTS = ['c', 'erased', 'parts']


def sources(out):
    """Writes the library's workspace."""
    subprocess.run([sys.executable, '-B', str(TOP / 'bindings/rust/quick.py'), str(out)], check=True)
    for name in os.listdir(out):
        if name not in (*PARTS, 'Cargo.toml', 'Cargo.lock') and (out / name).is_dir():
            shutil.rmtree(out / name)
    manifest = out / 'Cargo.toml'
    lines = manifest.read_text().split('\n\n')
    kept = [lines[0].split('members')[0] + 'members = %s\nresolver = "2"' % str(PARTS).replace("'", '"')]
    kept += [part for part in lines[1:] if part.startswith('[profile.release]')]
    manifest.write_text('\n\n'.join(kept) + '\n')


def build_library():
    """The shared library, with the soname and the versions of symbols that scripts/quick gives it."""
    rust = HERE / 'rust'
    made = (TOP / 'out/python' if TOP else HERE / 'build').resolve()
    if TOP:
        rust = made / 'rust'
        sources(rust)
    subprocess.run(['cargo', 'build', '--release', '-p', 'postgres_protocol', '--target-dir', str(made / 'target')], cwd=rust, check=True)
    major = VERSION.split('.')[0]
    exports = made / 'exports.map'
    exports.write_text('POSTGRES_PROTOCOL_%s { global: pgp_*; local: *; };\n' % '.'.join(VERSION.split('.')[:2]))
    subprocess.run([os.environ.get('CC', 'cc'), '-shared', '-o', str(LIBRARY), '-Wl,-soname,libpostgres_protocol.so.' + major, '-Wl,--whole-archive',
                    str(made / 'target/release/libpostgres_protocol.a'), '-Wl,--no-whole-archive', '-Wl,--version-script=%s' % exports, '-Wl,--gc-sections',
                    '-Wl,--strip-debug', '-lgcc_s', '-lpthread', '-lm', '-ldl'], check=True)
    atexit.register(LIBRARY.unlink)


class Build(build):
    def run(self):
        if not LIBRARY.exists():
            build_library()
        super().run()


class Sdist(sdist):
    """With the library's sources, and what stands elsewhere in a checkout."""

    def make_release_tree(self, base_dir, files):
        super().make_release_tree(base_dir, files)
        base = Path(base_dir)
        if TOP:
            sources(base / 'rust')
            shutil.copytree(HEADERS, base / 'include')
            shutil.copy(README, base / 'README.md')
            (base / 'VERSION').write_text(VERSION + '\n')


for name in LICENCES:
    if TOP and not (HERE / name).exists():
        shutil.copy(TOP / name, HERE)
        atexit.register((HERE / name).unlink)
setup(
    version=VERSION,
    # (where a package is shown its page's links to other pages would lead nowhere)
    long_description=re.sub(r'\[([^]]+)\]\((?!https?:)[^)]+\)', r'\1', README.read_text(encoding='utf-8')),
    long_description_content_type='text/markdown',
    cmdclass={'build': Build, 'sdist': Sdist},
    ext_modules=[Extension('postgres_protocol._rows', ['postgres_protocol/_rows.c'], include_dirs=[str(HEADERS)], py_limited_api=True,
                           extra_objects=['postgres_protocol/libpostgres_protocol.so.0'], extra_link_args=['-Wl,-rpath,$ORIGIN'])],
    options={'bdist_wheel': {'py_limited_api': 'cp38'}},
)
