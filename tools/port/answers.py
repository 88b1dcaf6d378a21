#!/usr/bin/env python3
"""Turns the Proof.antt files of a crate to Invariants.antt and Answers.antt, as today's Rattle reads them.

usage: python3 tools/port/answers.py CRATE NAMES.json [FUNCTION..]

NAMES.json is what `rt check --generated FOLDER --old-names` writes in the crate's folder. Goals that were only `search rules` are left out,
since the check tries that by itself. Proofs by hand (with no tie.spec) stay. What could not be turned is printed.
"""
import json
import os
import re
import subprocess
import sys

TOKEN = r"[^\s(){}.;,@\"«»\\]+"
ROOT = os.path.join(os.path.dirname(os.path.realpath(__file__)), "..", "..")


def decls(text):
    """The top-level declarations: (name, type, rest)."""
    lines = text.split("\n")
    head, out, comment = [], [], []
    i = 0
    while i < len(lines):
        m = re.match(rf"(?:abbrev |unfoldable |pub )*({TOKEN})((?: [({{].*)?) : ?(.*)$", lines[i])
        if m and not lines[i].startswith(("use ", "--", " ", "data", "module", "record")):
            j = i + 1
            while j < len(lines) and not (re.match(rf"(?:abbrev |unfoldable |pub |data |record |module )*({TOKEN})(?: [({{].*)? :(?: |$)", lines[j]) and not lines[j].startswith((" ", "--"))) and not lines[j].startswith(("--", "module ", "data ", "pub data ", "record ", "pub record ")):
                j += 1
            out.append([m[1], lines[i:j], comment])
            comment = []
            i = j
        else:
            if lines[i].startswith("use ") or not out:
                head.append(lines[i])
            else:
                # other blocks (module _, data ..) are kept as they are
                j = i + 1
                if lines[i].startswith("--"):
                    comment = comment + [lines[i]]
                    i += 1
                    continue
                while j < len(lines) and (lines[j].startswith(" ") or lines[j] == ""):
                    j += 1
                out.append([None, lines[i:j], comment])
                comment = []
                i = j
                continue
            i += 1
    return head, out


class Names:
    def __init__(self, d):
        self.needs = d["needs"]
        self.at = d["asked_at"]
        self.places = {}
        for place, parent, step, *more in d["places"]:
            self.places[place] = (parent, step)
        self.arms = d["arms"]
        self.arm_of = {}
        for (place, parent, step, *more), arm in zip(d["places"], d["arms"]):
            self.arm_of[place] = arm
        self.loops = d["loops"]
        self.pre = d["pre"]
        self.params = d["params"]
        self.callee = {p[0]: p[3] for p in d["places"]}
        self.typed = {p[0]: dict((b, a) for a, b in ty) for p, ty in zip(d["places"], d["typed"])}
        self.changed = d["changed"]


def dashless(s):
    return s.replace("-", "_")


def clause_path(fields, clauses):
    """1.1.0 of clauses that were nested pairs, as the clause's name."""
    if len(clauses) < 2 or not fields or fields[0] not in ("0", "1"):
        return fields
    i, k = 0, 0
    while k < len(fields) and fields[k] == "1" and i < len(clauses) - 1:
        i += 1
        k += 1
    if i < len(clauses) - 1:
        if k < len(fields) and fields[k] == "0":
            k += 1
        else:
            return fields
    return [clauses[i]] + fields[k:]


def ensures_of(callee):
    """The names of a function's ensures, from the sources."""
    crate, *rest = callee.split("::")
    base = os.path.join(ROOT, "crates", crate, "src")
    for f in sorted(os.listdir(base)) if os.path.isdir(base) else []:
        m = re.search(rf"\bfn {rest[-1]}\([^)]*\)(.*?)\n *\{{\n", open(os.path.join(base, f)).read(), re.S)
        if m:
            return re.findall(r"\n\s*ensures (\w+) \{", m[1])
    return []


def muts_of(callee):
    """The names of a function's parameters that are &mut, from the sources."""
    crate, *rest = callee.split("::")
    base = os.path.join(ROOT, "crates", crate, "src")
    for f in sorted(os.listdir(base)) if os.path.isdir(base) else []:
        for m in re.finditer(rf"\bfn {rest[-1]}\(([^)]*)\)", open(os.path.join(base, f)).read()):
            return [w.split(":")[0].strip() for w in m[1].split(",") if "&mut" in w]
    return []


def chain(names, place):
    while place is not None:
        yield place
        place = names.places[place][0]


def turn_path(names, place, head, path, said):
    """c.before.before.STEP.FIELD at a place, as c.STEP.FIELD: the step is looked for on the way to the place, first at its depth."""
    parts = path.split(".")
    k = 0
    while k < len(parts) and parts[k] == "before":
        up = names.places[place][0]
        place = place if up is None else up
        k += 1
    rest = parts[k:]
    if not rest:
        return None, place
    if rest[0] in ("args", "requires", "ranges"):
        if rest[0] == "requires" and names.pre:
            rest[1:] = clause_path(rest[1:], names.pre["fields"])
        return ".".join(["c"] + rest), place
    found = [p for p in chain(names, place) if dashless(names.places[p][1][0]) == dashless(rest[0])]
    below = [p for p in chain(names, names.start) if dashless(names.places[p][1][0]) == dashless(rest[0])]
    if place not in found:
        if len(below) != 1:
            said.append(f"step {rest[0]} at {place}: {len(below)} such: {path}")
        if found or below:
            place = (found or below)[0]
        else:
            return ".".join(["c"] + rest), place
    old, new = names.places[place][1]
    fields = rest[1:]
    callee = names.callee.get(place)
    if callee and fields[:1] in (["auto"], ["new"], ["kept"]) and fields[1:] and fields[1].isdigit():
        muts = muts_of(callee)
        params = names.params.get(callee, [])
        k = 1
        while fields[k:k + 1] == ["1"]:
            k += 1
        if fields[k:k + 1] == ["0"] and k - 1 < len(params):
            fields = ["new" if fields[0] == "new" else "auto", params[k - 1]] + fields[k + 1:]
        elif len(muts) == 1:
            while fields[1:] and fields[1].isdigit():
                del fields[1]
            fields = [fields[0] if fields[0] != "kept" else "auto", muts[0]] + fields[1:]
        elif int(fields[1]) < len(muts):
            fields = [fields[0] if fields[0] != "kept" else "auto", muts[int(fields[1])]] + fields[2:]
        else:
            said.append(f"{path}: {callee} has {muts}")
    if callee and fields[:1] == ["ensures"]:
        fields[1:] = clause_path(fields[1:], ensures_of(callee))
    arm = names.arm_of.get(place)
    if arm and fields[:1] == ["given"]:
        for name, step, given in arm[2]:
            if dashless(step) == dashless(old) and given == fields[: len(given)] and given:
                return ".".join(["c", arm[0], name] + fields[len(given):]), place
        said.append(f"given: {path} at {place}: {arm}")
    return ".".join(["c", new] + fields), place


def turn_body(names, place, text, said):
    names.start = place
    alias = {"c": place}
    while True:
        heads = "|".join(sorted(map(re.escape, alias), key=len, reverse=True))
        m = re.search(rf"\blet ({TOKEN}) = ({heads})((?:\.before)*) in(\s+)", text)
        if not m:
            break
        alias[m[1]] = turn_path(names, alias[m[2]], m[2], m[3][1:], said)[1] if m[3] else alias[m[2]]
        text = text[: m.start()] + text[m.end():]
    heads = "|".join(sorted(map(re.escape, alias), key=len, reverse=True))

    def path(m):
        got, _ = turn_path(names, alias[m[1]], m[1], m[2][1:], said)
        return got if got else m[0]

    text = re.sub(rf"(?<![^\s(){{}};,])({heads})((?:\.[^\s(){{}}.;,@\"]+)+)", path, text)
    known = {}
    for q in chain(names, place):
        for step, var in names.typed.get(q, {}).items():
            known.setdefault(dashless(step), var)
    old_of = {new: old for _, (old, new) in names.places.values()}

    def byte(m):
        var = known.get(dashless(old_of.get(m[1], "")))
        return f"(c.type_inv.{var} {m[2]}).fits" if var else m[0]

    text = re.sub(r"\(c\.([^\s.()]*slice_known[^\s.()]*)\.given ((?:[^()]|\([^()]*\))+)\)\.fits", byte, text)
    for x, step in re.findall(rf"\blet ({TOKEN}) = c\.({TOKEN}) in", text):
        callee = [names.callee[q] for q in chain(names, place) if names.places[q][1][1] == step and names.callee[q]]
        muts = muts_of(callee[0]) if callee else []
        params = names.params.get(callee[0], []) if callee else []
        text = re.sub(rf"(?<![^\s(){{}};,]){re.escape(x)}\.(auto|new)((?:\.1)*)\.0(?!\d)", lambda m: f"{x}.{m[1]}.{params[m[2].count('1')]}" if m[2].count("1") < len(params) else m[0], text)
        names_of = ensures_of(callee[0]) if callee else []
        if len(names_of) > 1:
            text = re.sub(rf"(?<![^\s(){{}};,]){re.escape(x)}\.ensures((?:\.\d)+)", lambda m: ".".join([x, "ensures"] + clause_path(m[1][1:].split("."), names_of)), text)
        if len(muts) == 1:
            text = re.sub(rf"(?<![^\s(){{}};,]){re.escape(x)}\.(auto|new)(?:\.\d)+", rf"{x}.\1.{muts[0]}", text)
        text = re.sub(rf"(?<![^\s(){{}};,]){re.escape(x)}\.(auto|new)\.(\d)(?!\d)", lambda m: f"{x}.{m[1]}.{muts[int(m[2])]}" if int(m[2]) < len(muts) else m[0], text)
    for a in alias:
        if a != "c" and re.search(rf"(?<![^\s(){{}};,.]){re.escape(a)}(?![^\s(){{}};,.])", text):
            said.append(f"{a} stays somewhere: it was {alias[a]}")
    return text


def top_parts(text):
    depth, out, last = 0, [], 0
    for i, ch in enumerate(text):
        depth += (ch in "([{") - (ch in ")]}")
        if ch == "," and depth == 0:
            out.append(text[last:i].strip())
            last = i + 1
    out.append(text[last:].strip())
    return [q for q in out if q]


def as_record(text, fields):
    """A tuple at the end of an answer, as a record with these fields."""
    text = text.rstrip()
    if not text.endswith(")"):
        return None
    depth, parts, end = 0, [], len(text) - 1
    for i in range(len(text) - 1, -1, -1):
        ch = text[i]
        if ch in ")]}":
            depth += 1
        elif ch in "([{":
            depth -= 1
            if depth == 0:
                parts.append(text[i + 1:end])
                start = i
                break
        elif ch == "," and depth == 1:
            parts.append(text[i + 1:end])
            end = i
    parts = [q for q in (q.strip() for q in reversed(parts)) if q]
    while len(parts) < len(fields) and parts[-1].startswith("(") and parts[-1].endswith(")"):
        more = top_parts(parts[-1][1:-1])
        if len(more) < 2:
            break
        if len(parts) + len(more) - 1 > len(fields):
            break
        parts[-1:] = more
    before = text[:start]
    if len(parts) != len(fields) or (before.strip() and not before.rstrip().endswith(" in")):
        return None
    return before.rstrip() + (" " if before.strip() else "") + "record { " + "; ".join(f"{f} = {q}" for f, q in zip(fields, parts)) + " }"


def unshadowed(text, names):
    """Gives a bound variable that is called as one of the names a prime."""
    at = 0
    while True:
        m = re.compile(rf"λ (?:\(({TOKEN}) :|({TOKEN}(?: {TOKEN})*)\.)").search(text, at)
        if not m:
            return text
        at = m.end()
        v = [w for w in (m[1] or m[2]).split() if w in names]
        if not v:
            continue
        v = v[0]
        at = m.start()
        depth, end = 0, len(text)
        for i in range(m.start(), len(text)):
            depth += (text[i] == "(") - (text[i] == ")")
            if depth < 0:
                end = i
                break
        scope = re.sub(rf"(?<![^\s(){{}};,.λ]){re.escape(v)}(?![^\s(){{}};,.])", v + "'", text[m.start():end])
        text = text[: m.start()] + scope + text[end:]


def convert(crate, key, d, old_text, text, folder):
    said = []
    names = Names(d)
    head, ds = decls(text)
    _, olds = decls(old_text)
    if not any("tie.spec" in "\n".join(x[1]) for x in ds):
        return None, None, ["by hand"]
    spec = [x for x in ds if "tie.spec" in "\n".join(x[1])][-1]
    body = "\n".join(spec[1])
    inside = body[body.index("tie.spec") + 8:]
    order = re.findall(rf"{TOKEN}", inside)
    by = {x[0]: x for x in ds if x[0]}
    invs = [n for n in order if n in by and re.search(r": tie\.(invariant|InvT)", by[n][1][0])]
    meas = [n for n in order if n in by and re.search(r": tie\.(decreases|MeasureT)", by[n][1][0])]
    goals = [n for n in order if n in by and n not in invs and n not in meas]
    is_need = {n: re.search(r": tie\.Need-(" + TOKEN + ")", by[n][1][0]) for n in goals}
    mapping = {}
    if len(goals) == len(names.needs):
        for n, need, at in zip(goals, names.needs, names.at):
            mapping[n] = (need[1], at[0])
    else:
        # by name: the landed file's, in the same order of declarations
        old_of = {}
        if len(olds) == len(ds):
            for a, b in zip(ds, olds):
                m = re.search(r": tie\.Need-(" + TOKEN + ")", b[1][0])
                if m:
                    old_of[a[0]] = m[1]
        table = {dashless(n[0]): (n[1], a[0]) for n, a in zip(names.needs, names.at)}
        turns = [("array_read", "element_copy_out"), ("array_write", "array_write"), ("loop_holds", "loop_init"), ("again", "preserved"), ("less", "smaller"), ("holds", "init")]
        for n in goals:
            o = dashless(old_of.get(n, n))
            for a, b in [("", "")] + turns:
                if o.replace(a, b) in table:
                    mapping[n] = table[o.replace(a, b)]
                    break
            else:
                said.append(f"no goal for {n} ({o}); goals: {len(goals)} and {len(names.needs)}")
    inv_out, ans_out = [], []
    loops = names.loops
    for kind, lst in (("invariant", invs), ("decreases", meas)):
        for k, n in enumerate(lst):
            lines = by[n][1]
            text_n = "\n".join(lines[1:]).strip("\n")
            m = re.match(rf"((?:unfolding .*\n)?){re.escape(n)}((?: +(?!=\s)«?{TOKEN}»?)*) =(\s)", text_n)
            if not m:
                said.append(f"{kind} {n} unread")
                continue
            args = m[2].split()
            rhs = text_n[m.end() - 1:]
            rec = kind == "decreases" and not n.endswith(tuple("loop" for _ in [0])) and len(lst) > len(loops)
            if k >= len(loops):
                said.append(f"{kind} {n}: no loop")
                continue
            (old_l, new_l), vs = loops[k]
            ch = names.changed[k]
            want = [v + ("₀" if c else "") for v, c in zip(vs, ch)] + [v for v, c in zip(vs, ch) if c]
            if len(want) != len(args):
                said.append(f"{kind} {n}: {args} and {want}")
                continue
            sub = {}
            for a, (w) in zip(args, [("l.initial." + v if c else "l." + v) for v, c in zip(vs, ch)] + ["l." + v for v, c in zip(vs, ch) if c]):
                sub[a] = w
            rhs = unshadowed(rhs, sub)
            sub = {k: re.sub(r"^(l\.(?:initial\.)?)data$", r"\1«data»", w) for k, w in sub.items()}
            pat = rf"(?<![^\s(){{}};,])({'|'.join(map(re.escape, sorted(sub, key=len, reverse=True)))})(?![^\s(){{}}.;,])"
            if sub:
                rhs = re.sub(pat, lambda t: sub[t[1]], rhs)
            rhs = rhs.replace("l.«data»", "l.«data»")
            name = f"{kind}-{new_l}"
            inv_out.append(f"abbrev pub {name} : goal.{name}\n{m[1]}{name} l ={rhs}")
    for n, lines, comment in ds:
        if n is None:
            ans_out.append("\n".join(comment + lines).rstrip())
            continue
        if n == spec[0] or n in invs or n in meas:
            continue
        if n not in goals:
            ans_out.append("\n".join(comment + lines).rstrip())
            continue
        rest = "\n".join(lines[1:]).strip("\n")
        m = re.match(rf"((?:unfolding .*\n)?){re.escape(n)}((?: +(?!=\s){TOKEN})*) =(\s)", rest)
        if not m:
            said.append(f"answer {n} unread: {rest[:80]}")
            continue
        rhs = rest[m.end() - 1:]
        if not m[1] and rhs.strip() in ("search rules",):
            continue
        if n not in mapping:
            ans_out.append("-- no goal: " + n)
            continue
        new, place = mapping[n]
        args = m[2].split()
        here = []
        rhs = turn_body(names, place, rhs, here)
        rhs = re.sub(r"^\s*\n", "\n", rhs) if rhs.strip().count("\n") else " " + rhs.strip() if len(rhs.strip()) < 150 else "\n    " + rhs.strip()
        fields = d["asked"].get(new) or d["asked"].get(next((o for o, w in names.needs if w == new), ""))
        if fields and len(fields) > 1:
            as_one = as_record(rhs, fields)
            if as_one:
                rhs = as_one if as_one.startswith((" ", "\n")) else " " + as_one
            else:
                said.append(f"{new}: wants a record of {fields}")
        said += [f"{new}: {x}" for x in here]
        if args[:1] != ["c"]:
            said.append(f"{new}: arguments {args}")
        if args[1:] and args[1:] != ["κs"]:
            said.append(f"{new}: arguments {args}")
        ans_out.append("\n".join(comment + [f"pub {new} : goal.{new}", f"{m[1]}{new} c ={rhs}"]))
    uses = [l for l in head if l.startswith("use ") and not re.search(r"\.(Statement|Tie)\b", l)]
    uses = [l.replace("use borrow.Author.Rules.{rules}", "use Rattle.std.proofs.Common.{rules}") for l in uses]
    uses = list(dict.fromkeys(uses))
    top = [l for l in head if l.startswith("--")]
    fn = folder[len("proofs/"):].replace("/", ".")
    inv = ans = None
    if inv_out:
        inv = "\n".join(top + uses + [f"use Rattle.{crate}.proofs.{fn}.Given as goal", ""]) + "\n" + "\n\n".join(inv_out) + "\n"
    if ans_out:
        ans = "\n".join(top + uses + [f"use Rattle.{crate}.proofs.{fn}.Goals as goal", ""]) + "\n" + "\n\n".join(ans_out) + "\n"
    return inv, ans, said


def main(crate, path, only):
    data = json.load(open(path))
    base = os.path.join(ROOT, "crates", crate)
    commit = open(os.path.join(ROOT, "docs/PORT.md")).read().split()[0]
    for key, d in sorted(data.items()):
        m = re.match(r"Rattle-\w+-proofs\.(.*)\.Lts$", key)
        if not m:
            continue
        folder = "proofs/" + m[1].replace(".", "/")
        p = os.path.join(base, folder, "Proof.antt")
        if not os.path.exists(p) or (only and m[1] not in only):
            continue
        text = open(p).read()
        r = subprocess.run(["git", "-C", ROOT, "show", f"{commit}:crates/{crate}/{folder}/Proof.antt"], capture_output=True, text=True)
        inv, ans, said = convert(crate, key, d, r.stdout, text, folder)
        for s in said:
            print(f"{m[1]}: {s}")
        if said == ["by hand"]:
            continue
        os.remove(p)
        for name, t in (("Invariants", inv), ("Answers", ans)):
            q = os.path.join(base, folder, name + ".antt")
            if t:
                open(q, "w").write(t)
        if not os.listdir(os.path.join(base, folder)):
            os.rmdir(os.path.join(base, folder))


if __name__ == "__main__":
    main(sys.argv[1], sys.argv[2], sys.argv[3:])
