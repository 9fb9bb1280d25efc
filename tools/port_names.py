#!/usr/bin/env python3
"""Bring the repository's own definitions and lemmas to snake case, as Rattle's library spells them. Run once, after port.py.

usage: python3 tools/port_names.py [--dry]

Turned are the names that .antt files of specs/ and proofs/ declare and that have a dash or an inner capital, wherever they stand in
.antt files and in .rt files outside strings. Names that a file imports from outside the repository stay in that file. A lemma whose new
name is a definition's gets '_lem' behind it. Goals of functions (declared at a type of 'tie') and the proofs of functions stay: what
stands for them is made by tools/port_proofs.py.
"""
import collections
import glob
import re
import sys

TOKEN = r"[^\s(){}\[\].;,@\"«»:=λ→×]+"
MARKS = r"(?:(?:pub|abbrev|unfoldable|pattern|irreducible)\s+)*"
DECLARED = re.compile(r"^\s*" + MARKS + r"(" + TOKEN + r")\s+:\s")
RULESET = re.compile(r"^\s*" + MARKS + r"ruleset\s+(" + TOKEN + r")\s+=")
OF_TIE = re.compile(r":\s*tie\.")
USE = re.compile(r"^\s*(?:pub\s+)?(?:ghost\s+)?use\s+([^\s;{]+?)\.\{([^}]*)\}", re.M | re.S)


# A name that has '_lem' only because a name that it never meets has its spelling: it goes without, and meshSound, a definition, before fields.
MENDED = {
    "count_is_lem": "count_is",
    "cut_part_lem": "cut_part",
    "empty_part_lem": "empty_part",
    "ghost_at_lem": "ghost_at",
    "is_answered_lem": "is_answered",
    "is_count_lem": "is_count",
    "is_first_lem": "is_first",
    "is_ghosts_lem": "is_ghosts",
    "is_table_lem": "is_table",
    "mesh_header_lem": "mesh_header",
    "mesh_sound": "mesh_sound_lem",
    "mesh_sound_lem": "mesh_sound",
    "new_bytes_lem": "new_bytes",
    "new_valid_lem": "new_valid",
    "no_file_lem": "no_file",
    "no_trees_lem": "no_trees",
    "old_bytes_lem": "old_bytes",
    "old_valid_lem": "old_valid",
    "plan_moves_lem": "plan_moves",
    "plan_output_lem": "plan_output",
    "rank_below_lem": "rank_below",
    "ranks_are_lem": "ranks_are",
    "ranks_of_lem": "ranks_of",
    "receive_set_lem": "receive_set",
    "receiver_below_lem": "receiver_below",
    "records_right_lem": "records_right",
    "row_last_lem": "row_last",
    "row_triangle_lem": "row_triangle",
    "same_length_lem": "same_length",
    "send_set_lem": "send_set",
    "sender_below_lem": "sender_below",
    "sender_is_lem": "sender_is",
    "tree_number_lem": "tree_number",
    "trees_are_lem": "trees_are",
    "trees_before_lem": "trees_before",
    "trees_of_lem": "trees_of"
}


def snake(name):
    """The spelling: dashes and inner capitals become '_', and a capital is a word of its own."""
    out = name.replace("-", "_")
    out = re.sub(r"(?<=[a-z0-9])([A-Z]+)", r"_\1", out)
    return out.lower() if re.fullmatch(r"[+\w']+", out) and out.isascii() else out


def old(name):
    return re.match(r"[a-z]|[A-Z][-_]", name) and ("-" in name or re.search(r"[a-z0-9_][A-Z]|^[A-Z]_", name))


def imports(text):
    """The names that a file takes from outside the repository."""
    out = set()
    for m in USE.finditer(text):
        if not m.group(1).startswith("Rattle.") or m.group(1).startswith("Rattle.std."):
            for item in m.group(2).split(","):
                out.update(x.strip() for x in item.split(" as "))
    return out


def of_goal(lines, i, name):
    """Whether the declaration in line i of a Proof.antt is that of a goal, an invariant or a measure."""
    for line in lines[i:]:
        if OF_TIE.search(line) or "Need-" in line:
            return True
        if "=" in line or not line.strip():
            return False
    return False


def main():
    dry = "--dry" in sys.argv
    files = sorted(
        f for f in glob.glob("crates/**/*", recursive=True) if f.endswith((".antt", ".rt")) and "/out/" not in f
    )
    text = {f: open(f, encoding="utf-8").read() for f in files}
    words, fields, lemmas, taken, bound = set(), set(), set(), set(), set()
    for f in files:
        if not f.endswith(".antt"):
            continue
        lines = text[f].split("\n")
        in_record = False
        for i, line in enumerate(lines):
            if not line.startswith(" ") and line.strip() and not line.startswith("--"):
                in_record = re.match(MARKS + r"(?:record|data)\s", line) is not None
            m = DECLARED.match(line) or RULESET.match(line)
            if not m or line.lstrip().startswith("--"):
                continue
            name = m.group(1)
            if f.endswith("/Proof.antt") and (of_goal(lines, i, name) or name.endswith("-spec")):
                continue
            kind = fields if in_record else words if "/specs/" in f else lemmas
            if line.startswith(" ") and not in_record and not re.match(r" +(?:pub|abbrev|unfoldable) ", line):
                continue
            if old(name) or re.match(r"[a-z]\w*_", name):
                kind.add(name)
            else:
                taken.add(name)
    table, used = {}, set(taken)
    # other names for a name, and bound names of specs/ and of clauses
    for f in files:
        for item in re.findall(r" as (" + TOKEN + ")", text[f]):
            if old(item):
                lemmas.add(item)
        if "/specs/" in f:
            code = re.sub(r"--[^\n]*", "", text[f])
            bound.update(w for w in re.findall(TOKEN, code) if old(w) and not w.startswith("Rattle"))
    for f in files:
        for item in imports(text[f]):
            bound.discard(item)
    last = bound - words - fields - lemmas
    for kind in (words, fields - words, lemmas - words - fields, last):
        for name in sorted(kind, key=lambda n: (bool(old(n)), n)):
            new = snake(name) if old(name) else name
            if new in used and kind is not last:
                new += "_lem"
            if new in used and kind is not last:
                new = next(f"{new}_{i}" for i in range(2, 99) if f"{new}_{i}" not in used)
            used.add(new)
            if new != name:
                table[name] = new
    table = {a: MENDED.get(b, b) for a, b in table.items()}
    foreign = {}
    for f in files:
        foreign[f] = imports(text[f])
    clash = [(f, n, table[n]) for f in files for n in set(re.findall(TOKEN, text[f])) & set(table) if table[n] in foreign[f]]
    for c in clash:
        print("clash:", *c)
    for n in sorted(table):
        if table[n] != snake(n):
            print("taken:", n, table[n])
    changed = 0
    for f in files:
        keep = foreign[f]

        def turn(m):
            word = m.group(0)
            return table[word] if word in table and word not in keep else word

        if f.endswith(".rt"):
            # a name that was in snake case is a function's here
            keep = keep | {n for n in table if not old(n)}
            parts = re.split(r'("(?:[^"\\]|\\.)*")', text[f])
            new = "".join(p if i % 2 else re.sub(TOKEN, turn, p) for i, p in enumerate(parts))
        else:
            # a module of a path keeps its name, which is a function's
            new = re.sub(r"Rattle(?:\.[\w+]+)+|" + TOKEN, lambda m: m.group(0) if m.group(0).startswith("Rattle.") else turn(m), text[f])
        if new != text[f]:
            changed += 1
            if not dry:
                open(f, "w", encoding="utf-8").write(new)
    if not dry:
        with open("tools/port_names.tsv", "w", encoding="utf-8") as out:
            out.writelines(f"{a}\t{b}\n" for a, b in sorted(table.items()))
    print(len(table), "names,", changed, "files")


main()
