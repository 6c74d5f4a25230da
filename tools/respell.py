#!/usr/bin/env python3
"""Brings the names of definitions, lemmas, fields and facts that this repository declares to one spelling.

usage: python3 tools/respell.py [--dry]      at the top of the repository

Words are in snake case, facts and types in camel case; a dash stays only beside an operator, as in `first-++`.
Names that the toolchain makes from the source keep the source's spelling, and a dash joins their parts only:
`overflow_add-x`, `returns-in_err-value`, `c.lag_count`.
"""
import collections
import glob
import re
import sys

NAME = r"[^\s(){}\[\];,.:\"«»λ→=]+"
DECLARED = re.compile(rf"^\s*(?:(?:abbrev|unfoldable|pub|open)\s+)*({NAME})\s*:(?![:=])")
HEAD = re.compile(rf"^\s*(?:(?:abbrev|unfoldable|pub)\s+)*(?:record|data)\s+({NAME})")
BOUND = re.compile(rf"\blet\s+({NAME})\s*[:=]|[({{]((?:{NAME}\s+)*{NAME})\s*:\s|λ\s*((?:{NAME}\s+)*{NAME})\s*\.")
TOKEN = re.compile(rf"{NAME}")
# what a name would otherwise fall together with
CHOSEN = {"Node-at": "point_node", "lt-ltZ": "lt_lt_int", "le-leZ": "le_le_int", "leZ-refl": "le_int_refl", "true-leZ": "true_le_int", "leZ-from": "le_int_from", "leZ-true": "le_int_true"}
# bound by a pattern alone
PATTERNS = {"pos-j", "turned-flow"}


def files(*patterns):
    return sorted(f for p in patterns for f in glob.glob(p, recursive=True) if "/out/" not in f)


def antt():
    return files("crates/*/specs/**/*.antt", "crates/*/proofs/**/*.antt")


def source():
    return files("crates/*/src/**/*.rt")


def in_function_folder(path):
    return path.endswith(("/Answers.antt", "/Invariants.antt", "/Proof.antt"))


def respelled(name):
    if name in CHOSEN:
        return CHOSEN[name]
    parts = name.split("-")
    if not all(re.match(r"[A-Za-z0-9_']", p) and re.search(r"[A-Za-z0-9_']$", p) for p in parts if p):
        return name if name[:1].isupper() else re.sub(r"-(?=[A-Za-z0-9])", "_", snake(name)) if re.match(r"[A-Za-z]", name) else name
    if name[:1].isupper():
        return "".join(p[:1].upper() + p[1:] for p in parts)
    return snake(name).replace("-", "_")


def snake(name):
    return re.sub(r"(?<=[a-z0-9])([A-Z])", lambda m: "_" + m.group(1).lower(), name)


def pieces(path, line):
    """The line as code and comment."""
    mark = "//" if path.endswith(".rt") else "--"
    m = re.search(rf"(?:^|\s){mark}", line)
    return (line, "") if not m else (line[: m.start()], line[m.start() :])


def collect():
    own, goals, other = set(PATTERNS), collections.defaultdict(set), set()
    for path in antt():
        text = open(path).read()
        if in_function_folder(path):
            goals[path] = set(re.findall(rf"goal\.({NAME})", text))
        for line in text.split("\n"):
            code, _ = pieces(path, line)
            found = [m.group(1) for m in (DECLARED.match(code), HEAD.match(code)) if m]
            for m in BOUND.finditer(code):
                found += [w for g in m.groups() if g for w in g.split()]
            for name in found:
                if name not in goals[path]:
                    own.add(name)
            if re.match(r"\s*use ", code):
                items = re.search(r"\{(.*)\}", code)
                if items and not re.search(r"use Rattle\.(?!std\b)", code):
                    other |= {w.strip() for w in items.group(1).split(",")}
    for path in antt() + source():
        own |= set(re.findall(rf"{NAME} as ({NAME})", open(path).read()))
    return own, goals, other


def identifiers():
    found = set()
    for path in source():
        found |= set(re.findall(r"[a-z][a-z0-9]*(?:_[a-z0-9]+)+", open(path).read()))
    found |= {"from_residual", "to_vec", "as_slice", "as_mut_slice", "in_err", "in_ok", "in_default", "type_inv", "invariant_of", "slice_bounds", "offset_bounds"}
    return sorted(found, key=len, reverse=True)


GOAL_WORDS = [("overflow-" + w, "overflow_" + w) for w in "add sub mul shl shr cast step neg".split()] + [("nonzero-div", "nonzero_div"), ("nonzero-rem", "nonzero_rem")]


def made(name, idents):
    """A name of the toolchain's making."""
    for ident in idents:
        kebab = ident.replace("_", "-")
        name = re.sub(rf"(?<![a-z0-9]){kebab}(?![a-z0-9])", ident, name)
    for old, new in GOAL_WORDS:
        name = re.sub(rf"^{old}(?![a-z])", new, name)
    return name


def main():
    dry = "--dry" in sys.argv
    own, goals, other = collect()
    idents = identifiers()
    turn = {n: respelled(n) for n in own if ("-" in n or re.search(r"[a-z][A-Z]", n)) and re.match(r"[A-Za-z]", n) and respelled(n) != n}
    turn = {n: r for n, r in turn.items() if not (n[:1].isupper() and "-" not in n)}
    back = collections.defaultdict(set)
    for n, r in turn.items():
        back[r].add(n)
    for r, ns in sorted(back.items()):
        clash = (ns | ({r} if r in own or r in other else set()))
        if len(clash) > 1:
            print("falls together:", r, "from", sorted(clash), "std" if r in other else "")
    left = collections.Counter()
    for path in antt() + source():
        text = open(path).read()
        out = []
        for line in text.split("\n"):
            code, comment = pieces(path, line)

            def one(m):
                t = m.group(0)
                before = code[: m.start()]
                if before.endswith("goal."):
                    return made(t, idents)
                if t in turn and t not in goals.get(path, ()):
                    return turn[t]
                if t in goals.get(path, ()):
                    return made(t, idents)
                if in_function_folder(path) and "-" in t and t not in other and re.match(r"[A-Za-z]", t):
                    return made(t, idents)
                if "-" in t and t not in other and re.match(r"[A-Za-z]\S*[A-Za-z0-9]$", t):
                    left[t] += 1
                return t

            if path.endswith(".rt"):
                parts = re.split(r'("(?:[^"\\]|\\.)*")', code)
                whole = code
                done = []
                for i, part in enumerate(parts):
                    if i % 2:
                        done.append(part)
                    else:
                        code = part
                        done.append(TOKEN.sub(one, part))
                code = "".join(done)
            else:
                code = TOKEN.sub(one, code)
            comment = re.sub(r"`([^`]+)`", lambda m: "`" + TOKEN.sub(lambda k: turn.get(k.group(0), k.group(0)), m.group(1)) + "`", comment)
            out.append(code + comment)
        new = "\n".join(out)
        if path.endswith(".rt"):
            # a bound's members go by the type, `N.net`
            new = re.sub(r"\b([A-Z])\.(?:Network|Project|Rule)\.([a-z_]+)", r"\1.\2", new)
            new = re.sub(r"(?<![.\w])net ((?!self\b)[a-z_]+\.(?:now|old|new)\b)", r"N.net \1", new)
        if new != text and not dry:
            open(path, "w").write(new)
    for path in files("docs/**/*.md", "README.md"):
        text = open(path).read()
        new = re.sub(r"`([^`\n]+)`", lambda m: "`" + TOKEN.sub(lambda k: turn.get(k.group(0), k.group(0)), m.group(1)) + "`", text)
        if new != text and not dry:
            open(path, "w").write(new)
    print(len(turn), "names turned")
    print("not turned:", " ".join(f"{n}" for n, k in left.most_common()))


main()
