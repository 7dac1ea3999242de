"""The conditions (`requires`) of public calls, of which nothing stays in an erased text: an assertion at the call's beginning, where one can say it."""
import re
from erase import Unknown, after_brace

CLAUSE = re.compile(r'^ *requires(?: \w+)? \{', re.M)
FUNCTION = re.compile(r'^( *)pub fn (\w+)', re.M)
# Of the caller's own closures and iterators: that they end, can be called, and write what they say. Nothing can ask that of them.
OF_THE_CALLER = re.compile(r'^(?:IsFiniteIterable|IsFinite|\w+\.(?:IsAlwaysCallable|can_next)|Owes\w+|Keeps\w+)\b')
OPENING, OPENED = 'the startup packet was written', 'no startup packet was written'
NAMED = 'parameters.iter().all(|(name, _)| !name.is_empty())', 'a parameter without a name'
# A condition, what it is in Rust, and what is said where it doesn't hold. None: a type's own fields, which nothing else writes, are such.
SAID = {
    'self.old.opened ≡ false': ('!self.opened', OPENING),
    'self.old.opened ≡ true': ('self.opened', OPENED),
    'out.opened ≡ false': ('!out.opened', OPENING),
    'self.old.out.opened ≡ true': ('self.out.opened', OPENED),
    '(B.held buf).bytes ≡ []': ('buf.as_slice().is_empty()', 'a buffer that holds bytes'),
    'Q.items pending ≡ []': ('pending.pop().is_none()', 'a queue that holds requests'),
    'start ≤ end': ('start <= end', 'an end before the start'),
    'end ≤ length room.old': ('end <= room.len()', 'an end behind the room'),
    'end ≤ length room.now': ('end <= room.len()', 'an end behind the room'),
    'self.old.failed ≡ false': ('!self.failed', 'the parser has failed'),
    'self.failed ≡ false': ('!self.failed', 'the parser has failed'),
    'count ≤ length (shown self.old).out': ('count <= self.state.out.len()', 'more than was to be sent'),
    'self.old.phase ≡ ServingPhase.Named': ('self.phase == ServingPhase::Named', 'the startup packet is not what came last'),
    'IsNamed (Startup 0 (map shown parameters.now))': NAMED,
    'IsNamed (Startup 0 (map shown_pair parameters.now))': NAMED,
    'IsNamed (Startup (minor_of version) (map shown parameters.now))': NAMED,
    'IsNamed (packet_of versions (map shown_pair parameters.now))': NAMED,
    'IsNonce (string_bytes nonce)': ('crate::scram::nonce::is_nonce(&nonce)', 'a nonce is printable ASCII without a comma'),
    'IsWhole self.now.opened self.now.bytes.now': None,
    'AreLeft T.read self.old': None,
    'AreLeft T.read self.now': None,
}
# What a condition needs before it.
BEFORE = {'Q.items pending ≡ []': 'let mut pending = pending;'}
# Modules of which the package shows nothing.
INNER = {'pgp_auth': {'lanes'}, 'pgp_values': {'codec', 'decimal', 'groups', 'written'}}


def asserted(erased, crate, name, source):
    """The erased text with the conditions of its public functions."""
    if name[:-3] in INNER.get(crate, ()):
        return erased
    functions = [(m.start(), m[1]) for m in re.finditer(r'^ *(?:pub(?:\([^)]*\))? )?fn (\w+)', source, re.M)]
    wanted = {}
    for clause in CLAUSE.finditer(source):
        at, function = [f for f in functions if f[0] < clause.start()][-1]
        public = FUNCTION.match(source, at)
        text = ' '.join(source[clause.end():after_brace(source, clause.end() - 1) - 1].split())
        if not public or OF_THE_CALLER.match(text):
            continue
        if text not in SAID:
            raise Unknown(f'crates/{crate}/src/{name}:{source.count(chr(10), 0, clause.start()) + 1}: no rule for this condition: {text}')
        if SAID[text]:
            nth = len(re.findall(rf'^ *pub fn {function}\b', source[:at], re.M))
            holds, words = SAID[text]
            wanted.setdefault((function, nth), []).extend(filter(None, [BEFORE.get(text), f'assert!({holds}, "{function}: {words}");']))
    for (function, nth), lines in wanted.items():
        place = list(re.finditer(rf'^( *)pub fn {function}\b[^{{]*\{{\n', erased, re.M))[nth]
        erased = erased[:place.end()] + ''.join(f'{place[1]}    {line}\n' for line in lines) + erased[place.end():]
    return erased
