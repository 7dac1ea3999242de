"""items.py JSON: the public items of a crate, one a line, from rustdoc's JSON: what it is, its path, its type. Traits that rustc gives and
those of blankets are left out. An older JSON than that of Rust 1.85 ends with the status 3."""
import json, sys

data = json.load(open(sys.argv[1]))
if data['format_version'] < 37:
    sys.exit(3)
index, paths = data['index'], data['paths']
lines = set()


def args(a):
    if not a:
        return ''
    if 'angle_bracketed' in a:
        a = a['angle_bracketed']
        have = [arg(x) for x in a['args']]
        have += [c['name'] + ' = ' + bound_term(c['binding']) for c in a.get('constraints', [])]
        return '<' + ', '.join(have) + '>' if have else ''
    a = a['parenthesized']
    return '(' + ', '.join(map(shown, a['inputs'])) + ')' + (' -> ' + shown(a['output']) if a['output'] else '')


def bound_term(b):
    return shown(b['equality']['type']) if 'equality' in b and 'type' in b['equality'] else str(b)


def arg(x):
    return x.get('lifetime') or (shown(x['type']) if 'type' in x else str(x.get('const', '_')))


def named(p):
    name = (p.get('path') or p.get('name')).split('::')[-1]
    return name + args(p.get('args'))


def bound(b):
    if 'trait_bound' in b:
        return named(b['trait_bound']['trait'])
    return b.get('outlives') or str(b)


def bounds(bs):
    return ' + '.join(sorted(map(bound, bs)))


def shown(t):
    if t is None:
        return '_'
    kind, v = next(iter(t.items())) if isinstance(t, dict) else (t, None)
    if kind in ('primitive', 'generic'):
        return v
    if kind == 'resolved_path':
        return named(v)
    if kind == 'borrowed_ref':
        return '&' + (v['lifetime'] + ' ' if v['lifetime'] else '') + ('mut ' if v['is_mutable'] else '') + shown(v['type'])
    if kind == 'slice':
        return f'[{shown(v)}]'
    if kind == 'array':
        return f'[{shown(v["type"])}; {v["len"]}]'
    if kind == 'tuple':
        return '(' + ', '.join(map(shown, v)) + ')'
    if kind == 'dyn_trait':
        return 'dyn ' + ' + '.join(sorted(named(x['trait']) for x in v['traits']))
    if kind == 'qualified_path':
        return shown(v['self_type']) + '::' + v['name']
    if kind == 'impl_trait':
        return 'impl ' + bounds(v)
    raise SystemExit(f'items: unknown type {t}')


def function(f):
    sig, gen = f['sig'], f['generics']
    where = [p['name'] + ': ' + bounds(p['kind']['type']['bounds']) for p in gen['params'] if 'type' in p['kind'] and p['kind']['type']['bounds']]
    where += [shown(w['bound_predicate']['type']) + ': ' + bounds(w['bound_predicate']['bounds']) for w in gen['where_predicates'] if 'bound_predicate' in w]
    inputs = ', '.join(shown(t) for _, t in sig['inputs'])
    return f'({inputs})' + (' -> ' + shown(sig['output']) if sig['output'] else '') + (' where ' + ', '.join(sorted(where)) if where else '')


def members(path, inner):
    for i in inner.get('impls', []):
        imp = index[str(i)]['inner']['impl']
        if imp['is_synthetic'] or imp['blanket_impl']:
            continue
        if imp['trait']:
            if named(imp['trait']) != 'StructuralPartialEq':
                lines.add(f'impl {path}: {named(imp["trait"])}')
            continue
        for j in imp['items']:
            item = index[str(j)]
            if item['visibility'] == 'public':
                lines.add(f'fn {path}::{item["name"]}{function(item["inner"]["function"])}')


def visit(item, path):
    kind, v = next(iter(item['inner'].items()))
    if kind == 'module':
        lines.add(f'mod {path}')
        for i in v['items']:
            child = index[str(i)]
            if child['visibility'] == 'public':
                visit(child, path + '::' + (child['name'] or ''))
    elif kind == 'use':
        target = index.get(str(v['id']))
        if target is None:
            return
        if v['is_glob']:
            for i in target['inner']['module']['items']:
                if index[str(i)]['visibility'] == 'public':
                    visit(index[str(i)], path.rsplit('::', 1)[0] + '::' + (index[str(i)]['name'] or ''))
        else:
            visit(target, path.rsplit('::', 1)[0] + '::' + v['name'])
    elif kind == 'function':
        lines.add(f'fn {path}{function(v)}')
    elif kind == 'constant':
        lines.add(f'const {path}: {shown(v["type"])} = {v["const"].get("value") or v["const"]["expr"]}')
    elif kind == 'type_alias':
        lines.add(f'type {path} = {shown(v["type"])}')
    elif kind == 'struct':
        lines.add(f'struct {path}')
        fields = v['kind'].get('plain', {}).get('fields', []) if isinstance(v['kind'], dict) else []
        for i in fields:
            if index[str(i)]['visibility'] == 'public':
                lines.add(f'field {path}::{index[str(i)]["name"]}: {shown(index[str(i)]["inner"]["struct_field"])}')
        members(path, v)
    elif kind == 'enum':
        lines.add(f'enum {path}')
        for i in v['variants']:
            k = index[str(i)]['inner']['variant']['kind']
            held = [shown(index[str(f)]['inner']['struct_field']) for f in k['tuple']] if isinstance(k, dict) and 'tuple' in k else []
            lines.add(f'variant {path}::{index[str(i)]["name"]}' + (f'({", ".join(held)})' if held else ''))
        members(path, v)
    else:
        raise SystemExit(f'items: unknown item {kind} {path}')


visit(index[str(data['root'])], 'postgres_protocol')
print('\n'.join(sorted(lines)))
