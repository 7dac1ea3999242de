"""Writes src/types.rt and specs/Types.antt: `python3 expected/types.py POSTGRES_BKI`, in crates/pgtool_line.

The table is pg_type as PostgreSQL 15 has it before a catalog is made: the file that `initdb` reads (on Debian
/usr/share/postgresql/15/postgres.bki). The numbers of these types are the same in each server.
"""
import re
import sys

SIZE = 14


def table(path):
    rows, here = [], False
    for line in open(path, encoding="ascii"):
        if line.startswith("create "):
            here = line.startswith("create pg_type ")
        found = re.match(r"insert \( (\d+) (\S+) ", line)
        if here and found:
            rows.append((int(found[1]), found[2]))
    return sorted(rows)


def name(group):
    return "from_%d" % group[0][0]


def code(groups):
    out = "//! The types that each server has, by their numbers: written by `python3 expected/types.py`.\n\n"
    out += "ghost use Rattle.std.specs.Prelude.{◌≡◌};\nghost use Rattle.std.specs.Option.{option_map};\n"
    out += "ghost use Rattle.pgtool_line.specs.Types.{%s, type_of};\n" % ", ".join(sorted(map(name, groups[1:])))
    for at, group in enumerate(groups):
        out += "\n/// The name of a type, where it is one of the server's own.\n#[tactic(auto, unfolding(crate::specs::Types::type_of))]\npub fn type_of" if at == 0 else "\nfn " + name(group)
        out += "(oid: u32) -> Option<&'static str>\n    ensures { option_map (λ name. name.now) result ≡ %s oid }\n{\n    match oid {\n" % (
            "type_of" if at == 0 else name(group)
        )
        for number, text in group:
            out += '        %d => Some("%s"),\n' % (number, text)
        out += "        _ => %s,\n    }\n}\n" % (name(groups[at + 1]) + "(oid)" if at + 1 < len(groups) else "None")
    return out


def spec(groups):
    out = "-- The types that each server has, by their numbers: pg_type of PostgreSQL 15, written by `python3 expected/types.py`.\n"
    out += "use Rattle.std.specs.Prelude.{ℕ, List, Option, Some, None, ◌==◌, if◌then◌else◌, codes}\n"
    for at in reversed(range(len(groups))):
        group, called = groups[at], "type_of" if at == 0 else name(groups[at])
        out += "\n%s pub %s : ℕ → Option (List ℕ)\n%s oid =\n" % ("unfoldable" if at == 0 else "abbrev", called, called)
        for number, text in group:
            out += '    %sif oid == %d then Some (codes "%s")\n' % ("" if number == group[0][0] else "else ", number, text)
        out += "    else %s\n" % (name(groups[at + 1]) + " oid" if at + 1 < len(groups) else "None")
    return out


def main():
    rows = table(sys.argv[1])
    groups = [rows[at : at + SIZE] for at in range(0, len(rows), SIZE)]
    for path, text in (("src/types.rt", code(groups)), ("specs/Types.antt", spec(groups))):
        with open(path, "w", encoding="utf-8") as file:
            file.write(text)


main()
