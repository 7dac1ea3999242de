"""Crates that call `std` and not `Memory`: what Rattle's `std` answers, and what it is handed, in plain Rust, over quick/kit/calls.rs."""
import re
from erase import after_brace

ASKING = [(re.compile(r'\.to_string\((?!\))'), '.shown_in('), (re.compile(r'\bBytes::copy_from_slice\('), 'crate::kit::calls::bytes_of('),
          (re.compile(r'\bString::from_str\('), 'crate::kit::calls::text_of('), (re.compile(r'\bBytesMut::with_capacity\('), 'crate::kit::calls::room_for('),
          (re.compile(r'(::<\S+?)(?:, _)+>\('), r'\1>(')]
ANSWERING = {'push': 'pushed', 'push_str': 'lengthened', 'extend_from_slice': 'extended'}
# Macros of Rattle's `std` that are handed an allocator or a host.
ASKING_MACRO = re.compile(r'(?<![\w:])(assert|assert_eq|eprint|eprintln|format|panic|print|println|vec)!([(\[](?=\s*(?:in |&?rt;)))')


def answering(text, _crate):
    """Calls of `std` under names of their own, which answer whether there was memory. (A call whose answer isn't used is another one's.)"""
    for asking, answered in ASKING:
        text = asking.sub(answered, text)
    for call in reversed(list(re.finditer(r'\.(push|push_str|extend_from_slice)\(', text))):
        behind = text[after_brace(text, call.end() - 1, '()'):].lstrip()
        if behind.startswith(('?', '.is_')) or behind[0] != ';':
            text = f'{text[:call.start()]}.{ANSWERING[call[1]]}({text[call.end():]}'
    return ASKING_MACRO.sub(r'crate::kit::calls::\1!\2', text)
