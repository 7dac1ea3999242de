"""What makes plain Rust of an erased text. General rules stand for a difference of the languages and apply wherever they match; single
ones change one place, and stop the generator where it isn't found as often as they say. What no rule knows is found by `leftovers`."""
import os, re
from erase import Unknown, after_brace

with open(os.path.join(os.path.dirname(os.path.abspath(__file__)), '../../VERSION')) as file:
    VERSION = file.read().strip()
UNPROVED = VERSION + '+unproved'

# The allocator: each text is taken at the global one, so that its parameters and arguments go.
PARAMETER = re.compile(r'(?:, )?\bA: (?:Allocator|(?:Map)?Memory)(?: \+ Copy)?(?: = Global)?(?:, )?')

# From the kit's crates to the shim: (text of the source, text of the package).
NAMES = [
    ('use base64::DecodeAllocError;\n', 'use crate::kit::base64::DecodeAllocError;\n'),
    ('use base64::engine::general_purpose::STANDARD;', 'use crate::kit::base64::STANDARD;'),
    ('use sha2::{Digest, Sha256};', 'use crate::kit::digests::Sha256;'),
    ('use md5::{Digest, Md5};', 'use crate::kit::digests::Md5;'),
    ('hex::encode_to_slice', 'crate::kit::hex::encode_to_slice'),
    ('hex::encode(', 'crate::kit::hex::encoded('),
    ('hex::decode(', 'crate::kit::hex::decoded('),
    ('hex::FromHexError', 'crate::kit::hex::FromHexError'),
    ('use hex::FromHex;', 'use crate::kit::hex::FromHex;'),
    ('use rand_core::Rng;', 'use crate::kit::random::Rng;'),
    ('use rand::RngExt;', 'use crate::kit::random::RngExt;'),
    ('use std::simd::prelude::*;', 'use crate::kit::lanes::*;'),
    ('use unicode_normalization::to_nfkc;', 'use crate::kit::to_nfkc;'),
    ('use thiserror::Error as DeriveError;\n', ''),
    ('fn fmt<W: fmt::Write>(&self, f: &mut fmt::Formatter<W>)', "fn fmt(&self, f: &mut fmt::Formatter<'_>)"),
    ('#[rattlefmt::skip]\n', ''),
    ('use std::hash::{BuildHasherDefault, FoldHasher};\n', ''),
    (', BuildHasherDefault<FoldHasher>', ''),
    ('use std::env::FillError;\n', 'use crate::kit::host::FillError;\n'),
    ('use std::time::{Duration, Instant};', 'use crate::kit::host::Instant;\nuse std::time::Duration;'),
    ('std::env::args(', 'crate::kit::host::args('),
    ('fs::read_to_string(rt, ', 'fs::read_to_string('),
    ('fs::read_to_string(&rt, ', 'fs::read_to_string('),
    ('File::open(rt, ', 'File::open('),
    ('use std::test::Fail;\n', 'use crate::kit::calls::Fail;\n'),
    ('use std::process::Abort;\n', 'use crate::kit::calls::Abort;\n'),
    ('use std::rt::', 'use crate::kit::host::'),
    ('io::writer(', 'crate::kit::host::writer('),
    ('\nfn main(rt: HostRuntime)', '\npub fn main(rt: HostRuntime)'),
    # Of a later Rust than the package's.
    ('.cast_unsigned()', '.bits()'),
    ('.cast_signed()', '.number()'),
    ('.div_ceil(', '.divided_up('),
    ('.split_first_chunk()', '.first_block()'),
    ('.split_first_chunk::<', '.first_block::<'),
    ('.as_array()', '.whole_block()'),
    ('.checked_add_unsigned(', '.plus_unsigned('),
    ('.checked_sub_unsigned(', '.minus_unsigned('),
    (', IsTerminal, ', ', '),
    ('.trim_ascii()', '.trimmed()'),
    ('.trim_ascii_end()', '.end_trimmed()'),
    ('.split_at_checked(', '.parted('),
    ('.split_at_mut_checked(', '.parted_mut('),
]

# Crates of the kit whose names stand for modules of the shim.
SHIMS = re.compile(r'(?<![\w:])(clap|indexmap|jiff|jiff_core|jiff_fmt|json|rand_core|regex|ucd_category)::')

# Single places: file, how often, text, its substitute.
PLACES = [
    ('pgp_base/texts', 1, 'use crate::scanning::is_text;\n', ''),
    ('pgp_base/reading', 1, 'crate::scanning::', 'crate::kit::text::'),
    ('pgp_base/writing', 1, 'crate::scanning::', 'crate::kit::text::'),
    ('pgp_base/texts', 1, '    if is_text(bytes) {\n        Ok(unsafe { str::from_utf8_unchecked(bytes) })\n    } else {\n        Err(Error::NotUtf8)\n    }\n',
     '    match str::from_utf8(bytes) {\n        Ok(text) if text.len() == bytes.len() => Ok(text),\n        _ => Err(Error::NotUtf8),\n    }\n'),
    ('pgp_base/buffer', 1, '        let all = self.as_mut_slice();\n        all[place..place + over.len()].copy_from_slice(over);\n',
     '        self[place..][..over.len()].copy_from_slice(over);\n'),
    ('pgp_base/buffer', 1, 'self.as_mut_slice()', '&mut self[..]'),
    ('pgp_base/buffer', 1, 'BytesMut::as_slice(self)', '&self[..]'),
    ('pgp_base/walk', 1, 'final fn', 'fn'),
    ('pgp_frontend/copy', 1, 'pub struct CopyData<T: Buf>', 'pub struct CopyData<T>'),
    # Before Rust 1.89 these temporaries don't outlive their `let`.
    ('pgp_message_write/row', 1, '        let fields = [\n', '        put_fields(&[\n'),
    ('pgp_message_write/row', 1, '        ];\n        put_fields(&fields, buf)\n', '        ], buf)\n'),
    # The public crate's own call has no answer.
    ('pgp_message/parser', 1, 'buf.reserve(room(header, buf.len()))', 'Global::reserve_ahead(buf, room(header, buf.len()))'),
    ('pgwire_engines/ports', 1, 'self.read_to_end(bytes)', 'crate::kit::newer::read_whole(self, bytes)'),
    # What C hands over is taken out and put back.
    ('for_c/dialogue', 1, 'mem::replace(&mut dialogue.room, &mut [])', 'dialogue.room.take()'),
    ('for_c_auth/talk', 1, 'mem::replace(&mut dialogue.room, &mut [])', 'dialogue.room.take()'),
    ('for_c/dialogue', 1, 'dialogue.room = room;', 'dialogue.room.put_back(room);'),
    ('for_c_auth/talk', 1, 'dialogue.room = room;', 'dialogue.room.put_back(room);'),
    # Room for structs that hold nothing yet.
    ('for_c/cursor', 1, '    type Item: Copy;\n', '    type Item: Copy + Default;\n'),
    ('for_c/cursor', 1, 'let code = next_counted::<L>(bytes, &mut here, &mut items[at]);',
     'let mut item = L::Item::default();\n        let code = next_counted::<L>(bytes, &mut here, &mut item);'),
    ('for_c/cursor', 1, 'return if code == DONE { 0 } else { code };\n        }\n', 'return if code == DONE { 0 } else { code };\n        }\n        items[at].write(item);\n'),
    ('for_c/row', 1, 'columns[i] = column;', 'columns[i].write(column);'),
    ('for_c/row', 1, 'columns[i] = null();', 'columns[i].write(null());'),
    # The library and the programs say that they aren't proved.
    ('for_c/proved', 1, '\n    1\n', '\n    0\n'),
    ('pgtrace_session/run', 1, f'"pgtrace {VERSION}\\n"', f'"pgtrace {UNPROVED}\\n"'),
    ('pgserve/words', 1, f'.version("{VERSION}")', f'.version("{UNPROVED}")'),
    # The shim's trait has one call.
    ('test_alloc/counting', 1, '    fn next_u32(&mut self) -> u32 {\n        self.next_word()\n    }\n\n    fn next_u64(&mut self) -> u64 {\n        utils::next_u64_via_u32(self)\n    }\n\n', ''),
    # A call would hand these over by way of memory.
    ('for_c/cursor', 1, 'pub fn next_counted<', '#[inline(always)]\npub fn next_counted<'),
    ('for_c/front', 1, '#[inline(never)]\n', '#[inline(always)]\n'),
    # The adapter compiles these for single tags.
    ('pgp_message/message', 1, '    pub fn parse(', '    #[inline(always)]\n    pub fn parse('),
    ('pgp_message/parser', 1, '    pub fn parse(', '    #[inline(always)]\n    pub fn parse('),
]


# Where a buffer's own method `as_slice` is called: the public crates have none. Where these are named it is a trait's, but for
# two files.
OF_A_TRAIT = re.compile(r'\b(?:Buffer|Storage)\b')
SLICED = {'test_rows/client_read', 'test_rows/server'}


def without_drop_bounds(text):
    """In Rattle `Drop` as a bound says that a value may be dropped; in Rust each may."""
    text = re.sub(r'^((?:pub )?trait \w+(?:<[^>]*>)?): Drop \{$', r'\1 {', text, flags=re.M)
    text = re.sub(r'^ *\w+::\w+: Drop,\n|(?<=where\n) *\w+: Drop,\n', '', text.replace(' + Drop', ''), flags=re.M)
    return re.sub(r'^ *where\n(?= *\{)', '', re.sub(r'\b([A-Z]\w*): Drop\b', r'\1', text), flags=re.M)


def global_allocator(text):
    for name in set(re.findall(r"fn \w+<(?:[^()]*?, )?([B-Z]): (?:Memory|Allocator)\b", text)):
        start = r"(fn \w+<(?:[^()]*?, )?)%s: (Memory|Allocator(?: \+ Copy)?)((?:[^{;])*)" % name
        text = re.sub(start, lambda m: m[1] + 'A: ' + m[2] + re.sub(r'\b%s\b' % name, 'A', m[3]), text)
    text = re.sub(r'^ *A: Memory,\n', '', text, flags=re.M)
    text = PARAMETER.sub(lambda m: ', ' if m[0].startswith(',') and m[0].endswith(', ') else '', text)
    text = re.sub(r'<\n? *>', '', text)
    text = re.sub(r'<A, ', '<', re.sub(r'(?:::)?<A>', '', text.replace(', A>', '>'))).replace('::<Global>', '')
    text = text.replace('<Global>', '').replace('<Global, ', '<').replace(', Global>', '>')
    text = re.sub(r': A\b(?=[,)])', ': Global', re.sub(r'\bA::', 'Global::', text))
    text = re.sub(r'\*[\w.]+\.allocator\(\)', 'Global', text)
    text = re.sub(r'\b(IndexMap|String|Vec|VecDeque|BytesMut)::new\((?:Global|[a-z.]*\balloc(?:\(\))?|memory)\)', r'\1::new()', text)
    # (before Rust 1.67 an empty one asks for memory)
    text = text.replace('VecDeque::new()', 'Global::empty_queue()')
    text = re.sub(r'^use std::alloc::[^;]*;\n', '', text, flags=re.M)
    text = re.sub(r'^(use (?:crate|pgp_base|pgtrace_summary)::\{?[^;]*?)\b(?:(?:Map)?Memory, |, (?:Map)?Memory\b)', r'\1', text, flags=re.M)
    text = re.sub(r'^use (?:pgp_base|pgtrace_summary|crate::memory)::(?:Map)?Memory;\n', '', text, flags=re.M)
    return re.sub(r'^(use [\w:]+::)\{(\w+)\};', r'\1\2;', text, flags=re.M)


def shown_errors(text):
    """thiserror's derive, written out."""
    start = re.compile(r'^#\[derive\(([^)]*), DeriveError\)\]\n(pub enum (\w+)(?:<[^>]*>)? \{)', re.M)
    for m in reversed(list(start.finditer(text))):
        end = after_brace(text, m.end() - 1)
        body = text[m.end():end]
        named = re.findall(r'#\[error\("(\w+)"\)\]\n\s*(\w+)(\(?)', body)
        arms = ''.join(f'            {m[3]}::{name}{"(..)" * bool(fields)} => "{words}",\n' for words, name, fields in named)
        body = re.sub(r'^\s*#\[error\(.*\)\]\n', '', body, flags=re.M)
        text = text[:m.start()] + f'''#[derive({m[1]})]
{m[2]}{body}

impl std::fmt::Display for {m[3]} {{
    fn fmt(&self, f: &mut std::fmt::Formatter<'_>) -> std::fmt::Result {{
        f.write_str(match self {{
{arms}        }})
    }}
}}

impl std::error::Error for {m[3]} {{}}
''' + text[end:]
    return text


LET_ELSE = re.compile(r"^( *)let ((?:[^=;{]|\n)*?) = ((?:'[^'\n]'|\[[^\[\]]*\]|[^;{}])*?)\s+else \{", re.M)


def without_let_else(text):
    """`let PATTERN = VALUE else { .. };`, which is of Rust 1.65, as a `match`."""
    while let := LET_ELSE.search(text):
        indent, pattern, value = let.groups()
        names = [name for name in re.findall(r'\b((?:mut )?[a-z]\w*)\b(?![(:{])', pattern) if not name.startswith('_')]
        if re.search(r'[^\w\s(),\[\]@.:]', pattern):
            raise Unknown(f'no rule for this `let .. else`: {let[0].strip()}')
        end = after_brace(text, let.end() - 1)
        if text[end] != ';':
            raise Unknown(f'no end of this `let .. else`: {let[0].strip()}')
        tuple_of = lambda items: items[0] if len(items) == 1 else '(' + ', '.join(items) + ')'
        bare = [name.replace('mut ', '') for name in names]
        body = text[let.end() - 1:end].replace('\n', '\n    ')
        text = (f'{text[:let.start()]}{indent}let {tuple_of(names)} = match {value} {{\n{indent}    {pattern.replace("mut ", "")} => {tuple_of(bare)},\n'
                f'{indent}    _ => {body}\n{indent}}}{text[end:]}')
    return text


def inlined(text):
    """`#[inline]` before each function without a hint: without it what isn't generic can't be inlined in other crates."""
    hints = ['#[inline]\n', '#[inline(always)]\n', '#[inline(never)]\n', '    #[inline(always)]\n', '    #[inline(never)]\n', '    #[inline]\n', '#[cold]\n', '    #[cold]\n']
    none = ''.join(r'(?<!\n%s)' % re.escape(h) for h in hints)
    text = re.sub(none + r'^( *)((?:pub(?:\([\w:]+\))? )?fn )', lambda m: f'{m[1]}#[inline]\n{m[1]}{m[2]}', text, flags=re.M)
    return re.sub(r'^ *#\[inline\]\n(?= *fn \w+(?:<[^;{]*>)?\([^;{]*;)', '', text, flags=re.M)


SHOWN = re.compile(r'Global::push_shown\(\s*([\w& ]+),\s*format_args!\("((?:[^"\\]|\\.)*)"\),?\s*\)')
PART = re.compile(r'(\{\{|\}\}|\{\w+(?::>\d+)?\})')


def by_parts(call):
    """A text put together of texts and values, with no formatter; one with another format stays."""
    parts = [part for part in PART.split(call[2]) if part]
    if any(re.search(r'[{}]', part) and not PART.fullmatch(part) for part in parts):
        return call[0]
    lines = ''
    for part in parts:
        value = re.fullmatch(r'\{(\w+)(?::>(\d+))?\}', part)
        if value and value[2]:
            lines += f'crate::kit::calls::show_wide(&{value[1]}, {value[2]}, shown); '
        elif value:
            lines += f'crate::kit::calls::Show::show(&{value[1]}, shown); '
        else:
            lines += f'shown.push_str("{part[:1] if part in ("{{", "}}") else part}"); '
    return f'Global::push_parts({call[1]}, |shown| {{ {lines}}})'


LABEL = re.compile(r"'(\w+): (?=(?:loop|while|for)\b)")


def without_idle_labels(text):
    """The text without the labels of loops that no `break` or `continue` names: contracts named them."""
    for label in reversed(list(LABEL.finditer(text))):
        loop = text[label.end():after_brace(text, text.index('{\n', label.end()))]
        if not re.search(r"\b(?:break|continue) '%s\b" % label[1], loop):
            text = text[:label.start()] + text[label.end():]
    return text


PRELUDE = 'use crate::kit::prelude::*;\n'
# What of it a module of the package may name.
OF_PRELUDE = re.compile(r'\b(?:AllocError|AllocFailed|Global)\b|\.(?:push_reserved|divided_up|first_block|whole_block|plus_unsigned|minus_unsigned)\b|\.(?:bits|number)\(\)')


def without_idle_prelude(text):
    return text if OF_PRELUDE.search(text) else text.replace(PRELUDE, '', 1)


LIBRARY = r'(?:(?:pgp|pgtool|pgtrace|pgwire)_\w+|for_c\w*)'


def in_one_crate(text, crate):
    text = re.sub(rf'^ *(?:{LIBRARY}::)?laws::\w+(?:::<[^>]*>)?\([^;]*\);\n', '', text, flags=re.M)
    if not re.search(r'\blaws::', text):
        text = re.sub(r'^(use [^;]*?)(?:\blaws, |, laws\b)', r'\1', text, flags=re.M)
    text = re.sub(rf'^use (?:crate|{LIBRARY})::laws;\n', '', text, flags=re.M)
    for law in re.findall(rf'^use (?:crate|{LIBRARY})::laws::(\w+);\n', text, flags=re.M):
        text = re.sub(rf'^use (?:crate|{LIBRARY})::laws::{law};\n|^ *{law}\(\);\n', '', text, flags=re.M)
    text = re.sub(r'^(?:pub )?mod (?:laws|memory|scanning|tests);\n|^#\[cfg\(test\)\]\n|^pub use memory::.*\n', '', text, flags=re.M)
    text = re.sub(r'\bcrate::(?!kit\b)', f'crate::proved::{crate}::', text)
    text = re.sub(rf'(?<![\w:])({LIBRARY}|postgres_protocol)::', r'crate::proved::\1::', text)
    return re.sub(rf'^((?:pub )?use )({LIBRARY}) as', r'\1crate::proved::\2 as', text, flags=re.M)


def single_places(text, name, used):
    for i, (file, count, old, new) in enumerate(PLACES):
        if file == name:
            if text.count(old) != count:
                raise Unknown(f'crates/{name.replace("/", "/src/", 1)}.rt: {text.count(old)} times, not {count}: {old.strip().splitlines()[0]}')
            text = text.replace(old, new)
            used.add(i)
    return text


# What no package may have: a rule is wanted.
LEFT = re.compile(r'\b(ghost|requires|ensures|decreases|Model|tactic|Allocator|allocator|rattlefmt|laws|unsafe|DeriveError|simdutf8|final fn)\b'
                  r'|[:+] Memory\b|\buse .*\bMemory\b|\+ Drop\b|: Drop\b|\bA::|\bA>|<A\b|: A\b|(?<!\} )\belse(?= \{)')
TEXT = re.compile(r'"(?:[^"\\]|\\.)*"')
FOREIGN = re.compile(r'^(?:pub )?use ([a-z]\w*)::')
CRATES = {'std', 'crate', 'self', 'super', 'bytes', 'memchr', 'byteorder', 'arrayvec', 'itoa', 'uuid'}


def leftovers(text, modules):
    """Lines that no rule knows, with why."""
    for line in text.split('\n'):
        code = TEXT.sub('""', line).split('//')[0]
        if left := LEFT.search(code):
            yield line.strip(), left[0].strip()
        if (use := FOREIGN.match(code)) and use[1] not in CRATES | modules:
            yield line.strip(), use[1]


def fit(text, crate, name, used):
    """The erased text as a module of the package; `name` is its path without the crate's `src` and the ending."""
    text = global_allocator(without_drop_bounds(text))
    for old, new in NAMES:
        text = text.replace(old, new)
    text = SHIMS.sub(r'crate::kit::\1::', text)
    # (before Rust 1.87 these are functions of the module alone)
    if not re.search(r'^use std::str;', text, re.M):
        text = re.sub(r'(?<![\w:])(?=str::from_utf8\()', 'std::', text)
    text = re.sub(r'(?<!&)\bBytes::as_slice\(self\)', '&self[..]', text)
    text = single_places(SHOWN.sub(by_parts, text), name, used)
    text = in_one_crate(inlined(shown_errors(without_let_else(without_idle_labels(text)))), crate)
    top = re.match(r'(?:(?://[^\n]*)?\n)*', text).end()
    sliced = '.as_slice()' in text and (name in SLICED or not OF_A_TRAIT.search(text))
    uses = PRELUDE + 'use crate::kit::AsSlice as _;\n' * sliced
    return text[:top] + uses + text[top:]
