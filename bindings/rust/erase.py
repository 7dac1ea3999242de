"""Takes contracts, models, ghosts and tactics out of a `.rt` text. It deletes and adds nothing, which `is_part` shows."""
import re

TACTIC = re.compile(r'^\s*#!?\[tactic\((?:[^()]|\([^()]*\))*\)\]\n', re.M)
GHOST_USE = re.compile(r'^\s*ghost use [^;]*;\n', re.M)
GHOST = re.compile(r'^\s*ghost \w+(?:: | = )\{', re.M)
MODEL = re.compile(r'^impl[^{;]*\bModel for [^{]*\{', re.M)
CLAUSE = re.compile(r'^[ \t]*(?:requires|ensures|decreases)\*?(?: \w+)? \{', re.M)


class Unknown(Exception):
    """A construct that the generator doesn't know, or another number of one that it does."""


# A brace, or what may have one that is none: a literal or a comment.
BRACE = re.compile(r'[{}()]|"(?:[^"\\]|\\.)*"|\'(?:[^\'\\]|\\.)\'|//[^\n]*', re.S)


def after_brace(text, at, pair='{}'):
    """The index after the brace, or the last of another pair, that closes the one at `at`."""
    depth = 0
    for match in BRACE.finditer(text, at):
        depth += (match[0] == pair[0]) - (match[0] == pair[1])
        if depth == 0:
            return match.end()
    raise Unknown('a brace is open: ' + text[at:at + 60].split('\n')[0])


def without_blocks(text, start, tail):
    """The text without each block that begins as `start`, and without what `tail` matches after it."""
    while match := start.search(text):
        end = after_brace(text, match.end() - 1)
        text = text[:match.start()] + text[end + re.match(tail, text[end:]).end():]
    return text


def without_clauses(text):
    """The text without contracts. After the last clause of a method that has no body stands the method's `;`."""
    while match := CLAUSE.search(text):
        end = after_brace(text, match.end() - 1)
        if text[end] == ';':
            text = text[:match.start()].rstrip() + ';' + text[end + 1:]
        elif text[end] == '\n':
            text = text[:match.start()] + text[end:].lstrip('\n')
        else:
            text = text[:match.start()] + text[end:]
    return text


def without_drop(text):
    """The text without the derive of `Drop`, which in Rust every type has."""
    text = text.replace('#[derive(Drop)]\n', '')
    names = lambda m: '#[derive(%s)]' % ', '.join(x for x in m[1].split(', ') if x != 'Drop')
    return re.sub(r'#\[derive\(([^)]*)\)\]', names, text)


def erase(text):
    text = TACTIC.sub('', GHOST_USE.sub('', text))
    text = without_blocks(text, GHOST, r'[;,]?\n?')
    text = without_blocks(text, MODEL, r'\n?')
    text = text.replace('use std::marker::Model;\n', '').replace('marker::{Model, ', 'marker::{')
    return without_drop(without_clauses(text))


def is_part(part, whole):
    """Whether `part` is `whole` with characters deleted."""
    rest = iter(whole)
    return all(c in rest for c in part)
