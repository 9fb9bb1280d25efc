#!/usr/bin/env python3
"""Turn each proofs/F/Proof.antt of a crate, which answers the goals of the older Rattle, to Invariants.antt and Answers.antt.

usage: python3 tools/port_proofs.py CRATE_FOLDER NAMES [FUNCTION_FOLDER..]

NAMES is the folder that 'rt check --generated NAMES --old-names' wrote in the crate. An answer that is only 'search rules' is left out,
since the check finds it alone. A Proof.antt that walks the code by hand stays and is named. What cannot be turned is printed.
"""
import json
import os
import re
import sys

WORD = r"[^\s(){}\[\].;,@\"«»]+"
DECL = re.compile(r"^((?:pub |abbrev |unfoldable )*)(" + WORD + r") :(?:\s|$)")
LIB = {"borrow.Author.Tests", "native.Mathlib.Omega", "borrow.Author.Rules", "lib.ListN"}


def fold(name):
    """A name with no dash, underscore or count's mark told apart."""
    return re.sub(r"[-_·.]", "", name).lower()


class Names:
    def __init__(self, of):
        self.of = of
        self.places = {}
        for (old, parent, step, callee, subs), new in zip(of["places"], of["places_by_name"]):
            self.places[fold(old)] = (old, parent, step, subs, new)
        self.at = {}
        for (old, new), place in zip(of["needs"], of["asked_at"]):
            self.at.setdefault(fold(old), []).append((new, place[0]))
        self.loops = {fold(l[0][0]): (l[0][1], l[1], l[2] if len(l) > 2 else None) for l in of["loops"]}
        self.changed = of["changed"]
        self.arms = {fold(p[0]): a for p, a in zip(of["places"], of["arms"]) if a}
        self.args = [(a.split(" .")[1], b.split(" .")[1]) for a, b in of["args"] if a.startswith(".args .")]
        self.subs = {}
        for _, _, step, _, subs in of["places"]:
            self.subs.setdefault(step[1], []).extend(subs)
        self.typed = dict(zip([p[0] for p in of["places"]], of["typed"]))

    def by_order(self, goals):
        """The goals of the older form, in the order of the code, beside today's: where the counts agree, by place."""
        needs = list(zip(self.of["needs"], self.of["asked_at"]))
        self.order = {}
        if len(goals) == len(needs):
            self.order = {g: (n[1], p[0]) for g, (n, p) in zip(goals, needs)}

    def by_shape(self, goals):
        """Temporaries are counted anew: those of one shape that are left, in order, where the counts agree."""
        shape = lambda n: fold(re.sub(r"t\d+(?=-|$)", "t", re.sub(r"^(overflow|bounds|nonzero|slice-bounds|size)-", "", n)))
        left = [g for g in goals if not self.goal(g)]
        taken = {self.goal(g)[0] for g in goals if self.goal(g)}
        free = [(n, p) for n, p in zip(self.of["needs"], self.of["asked_at"]) if n[1] not in taken]
        for g in left:
            mine = [x for x in left if shape(x) == shape(g)]
            theirs = [x for x in free if shape(x[0][0]) == shape(g)]
            if len(mine) == len(theirs):
                n, p = theirs[mine.index(g)]
                self.order[g] = (n[1], p[0])

    def goal(self, need):
        """The new name of a goal, and the place where it is asked."""
        for cut in ("", "overflow-", "bounds-", "nonzero-", "slice-bounds-", "size-"):
            if need.startswith(cut):
                got = self.at.get(fold(need[len(cut):]))
                if got:
                    return got[0]
        return self.order.get(need)

    def chain(self, place):
        """The places from one to the start, that one first."""
        out = []
        while place is not None:
            got = self.places[fold(place)]
            out.append(got)
            place = got[1]
        return out


def blocks(text):
    """The top-level parts of a file: each the comments above it and its lines, which begin at the first column or are indented."""
    out, head, cur = [], [], None

    def end():
        nonlocal head, cur
        if cur is not None:
            while cur and not cur[-1].strip():
                cur.pop()
            out.append((head, cur))
            head, cur = [], None

    def opens(line):
        """Whether a line at the first column begins a part of its own, and is no further line of the one before."""
        if cur is None or line.startswith(("use ", "mod ", "pub mod ", "module ")) or DECL.match(line):
            return True
        return cur[0].startswith(("use ", "module "))

    for line in text.split("\n"):
        if not line.strip():
            if cur is not None:
                cur.append(line)
        elif line.startswith("--"):
            end()
            head.append(line)
        elif line.startswith(" "):
            if cur is None:
                cur = [line]
            else:
                cur.append(line)
        else:
            if opens(line):
                end()
                cur = [line]
            else:
                while cur and not cur[-1].strip():
                    cur.pop()
                cur.append(line)
    end()
    return out


PATH = re.compile(r"(?<![\w.\-'])c((?:\.before)*)\.([^\s(){}\[\].;,@\"]+)((?:\.[^\s(){}\[\].;,@\"]+)*)")


def paths(body, names, place, said, where):
    """The body with each path of the older form turned."""
    chain = names.chain(place)
    # a place that is named by let
    while True:
        m = re.search(r"let (" + WORD + r") = (c(?:\.before)+) in\s", body)
        if not m:
            break
        name, up = m.groups()
        body = re.sub(r"let " + re.escape(name) + r" = " + re.escape(up) + r" in\s+", "", body)
        body = re.sub(r"(?<![\w.'-])" + re.escape(name) + r"(?=\.)", up, body)
    body = re.sub(r"\.taken(?![\w'-])", ".true", body)
    body = re.sub(r"(\bif\d*)\.left(?![\w'-])", r"\1.false", body)
    body = re.sub(r"\.type-inv(?![\w'-])", ".type_inv", body)

    def turn(m):
        depth = len(re.findall(r"\.before", m.group(1)))
        field, rest = m.group(2), m.group(3)
        depth = min(depth, len(chain) - 1)
        old, parent, step, subs, new = chain[depth]
        if parent is None and fold(field) in ("args", "requires", "ranges", "typeinv", "wellformed", "lifetimes"):
            return f"c.{field}{rest}"
        # a step's own field; its new name
        plain = field
        if plain.endswith("_lem"):
            plain = plain[:-4]
        if fold(plain) == fold(step[0]):
            parts = rest.split(".")[1:]
            arm = names.arms.get(fold(old))
            if arm and parts:
                for new_field, _, was in arm[2]:
                    if parts[0] in was:
                        parts[0] = new_field
                        break
            if parts:
                for a, b in subs:
                    if parts[0] == a and a != b:
                        parts[0] = b
                        break
            return "c." + step[1] + "".join("." + p for p in parts)
        # the code has more or fewer places today: the nearest with that name
        near = [i for i, p in enumerate(chain) if p[1] is not None and fold(p[2][0]) == fold(plain)]
        if near:
            k = min(near, key=lambda i: abs(i - depth))
            parts = rest.split(".")[1:]
            for a, b in chain[k][3]:
                if parts and parts[0] == a:
                    parts[0] = b
                    break
            return "c." + chain[k][2][1] + "".join("." + p for p in parts)
        if fold(field) in ("args", "requires", "ranges", "typeinv"):
            return f"c.{field}{rest}"
        said.append(f"{where}: {m.group(0)} at {old} is not {step[0]}")
        return f"c.{field}{rest}"

    body = PATH.sub(turn, body)
    for a, b in names.args:
        body = re.sub(r"\." + re.escape(a) + r"(?![\w'-])", "." + b, body)
    # a step that is named by let: its fields too
    for name, step in re.findall(r"let (" + WORD + r") = c\.(" + WORD + r") in", body):
        for a, b in names.subs.get(step, []):
            if a != b and not (a == "fact"):
                body = re.sub(r"(?<![\w.'-])" + re.escape(name) + r"\." + a + r"(?![\w'-])", f"{name}.{b}", body)
    # a local name that is a definition's or a lemma's too
    for name in set(re.findall(r"let (" + WORD + r") = c\.", body)):
        if name in names.imported or name.endswith("_lem"):
            new = (name[:-4] if name.endswith("_lem") else name) + "_call"
            body = re.sub(r"(?<![\w.'-])" + re.escape(name) + r"(?=\.[a-z0-9]| = c\.)", new, body)
    # a test that is not: the fact itself
    atom = r"(?:_|[^\s()]+|\([^()]*\))"
    body = re.sub(r"not-(?:true|false) " + atom + r" ([^\s()]+)\.(true|false)-raw", r"\1.\2", body)
    return body


def tokens(body, table):
    return re.sub(WORD, lambda m: table.get(m.group(0), m.group(0)), body)


def loop_names(names, loop):
    got = names.loops.get(fold(loop))
    return got


def convert(path, names, said):
    text = open(path, encoding="utf-8").read()
    where = path
    uses, invariants, answers, helpers, table = [], [], [], [], {}
    parts = blocks(text)
    folder = None
    for head, lines in parts:
        first = lines[0]
        if first.startswith("use "):
            m = re.match(r"use (\S+)\.Tie as tie", first)
            if m:
                folder = "Rattle." + re.sub(r".*crates/", "", os.path.abspath(os.path.dirname(path))).replace("/", ".")
            elif not re.match(r"use \S+\.Statement\.\{statement\}", first):
                uses.append("\n".join(lines))
    if folder is None:
        return False
    goals = []
    for _, lines in parts:
        m = re.search(r"tie\.Need-(" + WORD + ")", "\n".join(lines))
        if m and DECL.match(lines[0]):
            goals.append(m.group(1))
    names.imported = {x.split(" as ")[-1].strip() for u in uses for m in re.findall(r"\{(.*)\}", u, re.S) for x in m.split(",")}
    names.by_order(goals)
    names.by_shape(goals)
    for head, lines in parts:
        first = lines[0]
        if first.startswith("use "):
            continue
        joined = "\n".join(lines)
        m = DECL.match(first)
        if not m and first.startswith(("module ", "mod ", "pub mod ")):
            helpers.append([head, joined, ""])
            continue
        if not m:
            said.append(f"{where}: not a declaration: {first[:60]}")
            continue
        marks, name = m.group(1), m.group(2)
        sig = []
        k = 0
        while k < len(lines) and not re.match(r"(?:unfolding\b)|" + re.escape(name) + r"(?:\s|$)", lines[k] if k else "-"):
            sig.append(lines[k])
            k += 1
        unfold = []
        while k < len(lines) and (lines[k].startswith("unfolding") or (unfold and lines[k].startswith(" "))):
            unfold.append(lines[k])
            k += 1
        clauses = "\n".join(lines[k:])
        signature = "\n".join(sig)
        if re.search(r":\s*\{M : Type 1\} → statement M", signature):
            continue
        m = re.search(r"tie\.(invariant|decreases)-(" + WORD + ")", signature)
        if m and "Need-" not in signature:
            kind, loop = m.group(1), m.group(2)
            got = names.loops.get(fold(loop))
            if not got:
                said.append(f"{where}: no loop {loop}")
                continue
            new_loop, variables = got[0], got[1]
            flags = names.changed[list(names.loops).index(fold(loop))]
            mm = re.match(re.escape(name) + r"((?: " + WORD + r")*) =(.*)", clauses, re.S)
            if not mm:
                said.append(f"{where}: {name}: not one clause")
                continue
            args = mm.group(1).split()
            body = mm.group(2)
            still = [v for v, ch in zip(variables, flags) if not ch]
            moved = [v for v, ch in zip(variables, flags) if ch]
            want = [f"l.{v}" for v in still] + [f"l.initial.{v}" for v in moved] + [f"l.{v}" for v in moved]
            sub = dict(zip(args, want))
            known = set(variables) | {v.replace("_", "-") for v in variables}
            if all(x.rstrip("₀") in known for x in args):
                under = {v.replace("_", "-"): v for v in variables}
                true = lambda x: under.get(x, x)
                sub = {x: f"l.initial.{true(x[:-1])}" if x.endswith("₀") else f"l.{true(x)}" for x in args}
            used = set(re.findall(WORD, body))
            new = f"{kind}-{new_loop}"
            table[name] = new
            # a name that a λ binds anew is one by let
            anew = [x for x in sub if re.search(r"λ[^.]*(?<![\w'-])" + re.escape(x) + r"(?![\w'-])[^.]*\.", body)]
            lets = "".join(f" let {x} = {sub[x]} in" for x in anew)
            for x in anew:
                sub.pop(x)
            body = lets + re.sub(r"(?<![.\w'])(" + WORD + r")", lambda q: sub.get(q.group(1), q.group(1)), body)
            words = set(re.findall(WORD, mm.group(2)))
            at = next(x for x in ("l", "now", "here", "turn") if x not in words)
            if at != "l":
                body = re.sub(r"(?<![.\w'-])l(?=\.(?:initial\.)?(?:" + "|".join(map(re.escape, variables)) + r")(?![\w'-]))", at, body)
            invariants.append("\n".join(head + [f"abbrev pub {new} : goal.{new}", *unfold, f"{new} {at} ={body}"]))
            continue
        m = re.search(r"tie\.Need-(" + WORD + ")", signature)
        if m:
            got = names.goal(m.group(1))
            if not got:
                said.append(f"{where}: no goal for {m.group(1)}")
                continue
            new, place = got
            table[name] = new
            body = re.sub(r"^" + re.escape(name) + r" c(?: κs)?(?= |$)", new + " c", clauses, flags=re.M)
            if re.fullmatch(re.escape(new) + r" c =\s*search rules\s*", body):
                # also under an unfolding: that one is kept, since the check alone doesn't unfold
                if not unfold:
                    continue
            answers.append([head, new, unfold, body, place])
            continue
        helpers.append([head, joined, signature])
    out = []
    for a in answers:
        if isinstance(a, str):
            out.append(a)
            continue
        head, new, unfold, body, place = a
        body = paths(body, names, place, said, f"{where}: {new}")
        if "κs" in body:
            said.append(f"{where}: {new}: κs is used")
        out.append("\n".join(head + [f"pub {new} : goal.{new}", *unfold, body]))
    for h in helpers:
        if "tie." in h[1]:
            said.append(f"{where}: a helper at a type of tie: {h[1].split(chr(10))[0]}")
    text_helpers = ["\n".join(h[0] + [h[1]]) for h in helpers]
    inv_text = "\n\n".join(invariants)
    folder_path = os.path.dirname(path)
    # helpers that the invariants name stand in Invariants.antt, the others in Answers.antt
    in_inv, in_ans = [], []
    need = set(re.findall(WORD, inv_text))
    for h, t in zip(reversed(helpers), reversed(text_helpers)):
        name = DECL.match(h[1]).group(2) if DECL.match(h[1]) else None
        if name in need:
            in_inv.insert(0, t)
            need |= set(re.findall(WORD, t))
        else:
            in_ans.insert(0, t)
    if invariants:
        moved = [DECL.match(h[1]).group(2) for h, t in zip(helpers, text_helpers) if t in in_inv]
        body = "\n".join(uses) + f"\nuse {folder}.Given as goal\n\n" + "\n\n".join(in_inv + [tokens(inv_text, {})]) + "\n"
        if moved:
            body = re.sub(r"^((?:abbrev |unfoldable )*)(?!pub)(" + "|".join(map(re.escape, moved)) + r") :", r"\1pub \2 :", body, flags=re.M)
        open(os.path.join(folder_path, "Invariants.antt"), "w", encoding="utf-8").write(body)
    else:
        moved = []
    if out or in_ans:
        table = {a: b for a, b in table.items() if a != b}
        body = "\n\n".join(in_ans + out)
        used = set(re.findall(WORD, body))
        extra = f"use {folder}.Invariants.{{{', '.join(n for n in moved if n in used)}}}\n" if any(n in used for n in moved) else ""
        invs = [n for n in table.values() if n.startswith(("invariant-", "decreases-"))]
        body = re.sub(r"(?<![.\w'])(" + WORD + ")", lambda q: table[q.group(1)] if q.group(1) in table and table[q.group(1)] in invs else q.group(1), body)
        cited = [n for n in invs if re.search(r"(?<![.\w])" + re.escape(n) + r"(?![\w-])", body)]
        if cited:
            extra += f"use {folder}.Invariants.{{{', '.join(cited)}}}\n"
        body = "\n".join(uses) + f"\n{extra}use {folder}.Goals as goal\n\n" + body + "\n"
        open(os.path.join(folder_path, "Answers.antt"), "w", encoding="utf-8").write(body)
    os.remove(path)
    inner = os.path.join(folder_path, "Proof")
    if os.path.isdir(inner):
        os.rename(inner, os.path.join(folder_path, "Answers"))
        for p, _, fs in os.walk(folder_path):
            for f in fs:
                t = open(os.path.join(p, f), encoding="utf-8").read()
                n = t.replace(folder + ".Proof.", folder + ".Answers.")
                if n != t:
                    open(os.path.join(p, f), "w", encoding="utf-8").write(n)
    return True


def main():
    crate, where = sys.argv[1], sys.argv[2]
    only = sys.argv[3:]
    table = json.load(open(os.path.join(where, "names.json"), encoding="utf-8"))
    said = []
    done = 0
    for folder, _, files in sorted(os.walk(os.path.join(crate, "proofs"))):
        if "Proof.antt" not in files:
            continue
        inner = os.path.relpath(folder, os.path.join(crate, "proofs")).replace("/", ".")
        if only and inner not in only and inner.replace(".", "/") not in only:
            continue
        key = [k for k in table if k.endswith(f"-proofs.{inner}.Lts")]
        if not key:
            said.append(f"{folder}: no names for {inner}")
            continue
        try:
            if convert(os.path.join(folder, "Proof.antt"), Names(table[key[0]]), said):
                done += 1
            else:
                said.append(f"{folder}: walks the code by hand")
        except Exception as e:  # noqa: BLE001
            said.append(f"{folder}: {type(e).__name__} {e}")
    print("\n".join(said))
    print(done, "proofs turned")


main()
