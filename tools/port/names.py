#!/usr/bin/env python3
"""Spells this repository's own definitions and lemmas as today's Rattle does: words in snake case.

usage: python3 tools/port/names.py [ROOT]      once, right after port.py; it says nothing where no two names fall together

A name that the texts below specs/ and proofs/ declare loses its inner capitals and its dashes: checkBytes is check_bytes, take-suc
is take_suc. Types, modules and names that the prover makes (the goals of a Proof.antt) stay. In a file a name is turned if the file
declares it or imports it from a crate of this repository; a field of a record everywhere. Functions of src/, strings, inputs and
outputs stay. A lemma that would fall together with a definition gets _lem.
"""
import collections
import os
import re
import sys

TOKEN = r"[^\s(){}.;,@\"«»\\]+"


def snake(n):
    return re.sub(r"(?<=[a-z0-9])[A-Z]", lambda m: "_" + m[0].lower(), n).replace("-", "_")


def turns(n):
    if re.fullmatch(r"[-→<>=]+", n) or n.startswith("-") or "◌" in n:
        return False
    if "-" in n:
        return re.search(r"\w-\w|\w-[^\s]|\w'-", n) is not None
    return n[:1].islower() and snake(n) != n


def files(root):
    for folder, dirs, names in os.walk(os.path.join(root, "crates")):
        dirs[:] = sorted(d for d in dirs if d not in ("out",))
        for f in sorted(names):
            if f.endswith((".antt", ".rt")):
                yield os.path.join(folder, f)


def uncommented(text):
    return re.sub(r"(?m)(^|\s)--\s.*$", lambda m: m[1], text)


DECLARES = re.compile(rf"(?m)^\s*((?:(?:abbrev|unfoldable|pub|data|record|mutual)\s+)*)((?:{TOKEN}\s+)+?)(?:(?:\([^()]*(?:\([^()]*\)[^()]*)*\)|\{{[^{{}}]*\}})\s*)*:(?=\s)")
USES = re.compile(rf"\buse\s+(Rattle(?:\.{TOKEN})+)\.\{{([^}}]*)\}}")
ALIAS = re.compile(rf"\buse\s+(Rattle(?:\.{TOKEN})+)\s+as\s+({TOKEN})")
WHOLE = re.compile(rf"(?m)\buse\s+(Rattle(?:\.{TOKEN})+)\s*;?\s*$")


def fields_of(text):
    out = set()
    inside = False
    for line in uncommented(text).split("\n"):
        if re.match(r"(abbrev |unfoldable )?(pub )?record\b.*\bwhere\s*$", line) or (inside is None and line.rstrip().endswith("where")):
            inside = True
            continue
        if re.match(r"(abbrev |unfoldable )?(pub )?record\b", line):
            inside = None
            continue
        if inside and line[:1] not in (" ", ""):
            inside = False
        if inside:
            m = re.match(rf"\s+(?:pub )?((?:{TOKEN}\s+)+):\s", line)
            if m:
                out.update(m[1].split())
    return out


def main(root):
    own = set(os.listdir(os.path.join(root, "crates")))
    texts = {p: open(p, encoding="utf-8").read() for p in files(root)}
    for p in texts:
        # port.py called this lemma all_words, which is the definition's name now.
        if p.endswith(("blocks/specs/Words.antt", "blocks/specs/SharedOut.antt")):
            texts[p] = re.sub(r"\ball_words\b", "all_words_lem", texts[p])
    declared, fields, plain = {}, set(), set()
    for p, t in texts.items():
        if not p.endswith(".antt"):
            continue
        made = os.path.basename(p) == "Proof.antt"
        code = uncommented(t)
        found = set()
        for m in DECLARES.finditer(code):
            rest = code[m.end():m.end() + 60]
            if made and re.match(r"\s*(tie|goal)\.", rest):
                continue
            found.update(n for n in m[2].split() if turns(n))
            plain.update(n for n in m[2].split() if not turns(n))
        declared[p] = found
        fields |= {n for n in fields_of(t) if turns(n)}
    everywhere = set().union(*declared.values())
    plain |= {snake(n) for n in everywhere if "-" not in n}
    new = lambda n: snake(n) + ("_lem" if "-" in n and snake(n) in plain else "")
    said = []
    for p, t in texts.items():
        here = set(declared.get(p, ()))
        others = set()
        aliases = set()
        for path, items in USES.findall(t):
            names = re.findall(TOKEN, items)
            if path.split(".")[1] in own:
                here.update(n for n in names if n in everywhere)
            else:
                others.update(names)
        for path, alias in ALIAS.findall(t):
            if path.split(".")[1] in own and not re.search(r"\.(Tie|Goals|Given)$", path):
                aliases.add(alias)
        for path in WHOLE.findall(t):
            if path.split(".")[1] in own:
                aliases.add(path.split(".")[-1])
        here -= others
        here.update(n for n in re.findall(rf" as ({TOKEN})", uncommented(t)) if turns(n) and n[:1].islower())
        spelled = collections.defaultdict(set)
        for n in here:
            spelled[new(n)].add(n)
        code_tokens = set(re.findall(TOKEN, uncommented(t)))
        for w, ns in spelled.items():
            if len(ns) > 1 or (w in code_tokens and p.endswith(".antt")):
                said.append(f"{p}: {sorted(ns)} would be {w}")

        def token(m):
            n = m[0]
            before = t_line[: m.start()]
            if before.endswith("."):
                head = re.search(rf"({TOKEN})\.$", before)
                if n in fields and not (head and head[1] in ("tie", "goal")):
                    return new(n)
                if head and head[1] in aliases and n in everywhere:
                    return new(n)
                if re.search(rf"Rattle(?:\.{TOKEN})+\.$", before) and re.search(r"Rattle\.(\w+)", before)[1] in own and n in everywhere:
                    return new(n)
                return n
            if n in here:
                return new(n)
            if n in fields and re.match(r"\s*=(?!=)", t_line[m.end():]):
                return new(n)
            return n

        out = []
        for t_line in t.split("\n"):
            if p.endswith(".antt"):
                m = re.search(r"(^|\s)--\s", t_line)
            else:
                m = re.search(r"(^|\s)//", t_line)
            at = m.start() if m else len(t_line)
            code, comment = t_line[:at], t_line[at:]
            if p.endswith(".rt"):
                pieces = re.split(r'(b?"(?:[^"\\]|\\.)*")', code)
                done = ""
                for k, piece in enumerate(pieces):
                    t_line = piece
                    done += piece if k % 2 else re.sub(TOKEN, token, piece)
                code = done
            else:
                t_line = code
                code = re.sub(TOKEN, token, code)
            comment = re.sub(r"`[^`]+`", lambda m: re.sub(r"[^\s(){}.;,@\"«»\\`]+", lambda k: new(k[0]) if k[0] in everywhere else k[0], m[0]), comment)
            out.append(code + comment)
        text = "\n".join(out)
        if text != t:
            with open(p, "w", encoding="utf-8") as f:
                f.write(text)
    print("\n".join(said))


if __name__ == "__main__":
    main(sys.argv[1] if len(sys.argv) > 1 else os.path.join(os.path.dirname(os.path.realpath(__file__)), "..", ".."))
