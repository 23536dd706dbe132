#!/usr/bin/env python3
"""Respells the repository's own definitions and lemmas: words in snake case, facts in camel case, a dash only between two names.

usage: tools/spell.py [--list]      at the top of the repository, once, after the kit's own script; with --list it prints the names and writes nothing
"""
import collections
import glob
import os
import re
import sys

SPLIT = re.compile(r"([\s(){}\[\];,.|`]+)")
NAMED = re.compile(r"^(\s*)((?:(?:pub|abbrev|unfoldable)\s+)*)((?:data|record)\s+)?([^\s(){}\[\],;.]+)((?:\s+[({].*?[)}])*)\s+:\s+(.*)$")
GOALS = re.compile(r"^[\w-]+\.")
PLAIN = re.compile(r"[a-z0-9_']+$")
WORDS = ("let", "in", "use", "module", "where", "unfolding", "infixl", "infixr", "infix", "mod", "pub", "elim", "λ", "record", "data")


def sources(ending):
    return sorted(p for p in glob.glob("crates/*/**/*" + ending, recursive=True) if "/out/" not in p)


def read(path):
    with open(path, encoding="utf-8") as f:
        return f.read()


def declared():
    """Each declared name with its kinds: def, fact or lemma."""
    found = collections.defaultdict(set)
    for path in sources(".antt"):
        for line in read(path).split("\n"):
            m = NAMED.match(line)
            if not m or line.lstrip().startswith("--"):
                continue
            indent, mods, kind, name, args, goal = m.groups()
            if name in WORDS or GOALS.match(goal) and not indent and "→" not in goal and "≡" not in goal:
                continue
            if len(indent) > 2:
                continue
            fact = kind or re.search(r"(^|→ )Type 0( where)?\s*$", goal)
            if fact and ("abbrev" in mods or "unfoldable" in mods or kind):
                found[name].add("fact")
            elif indent or "abbrev" in mods or "unfoldable" in mods:
                found[name].add("def" if "abbrev" in mods or "unfoldable" in mods or not under_module(path, line) else "lemma")
            else:
                found[name].add("lemma")
    return found


def under_module(path, line):
    """Whether an indented line stands below a `module _`, as a lemma does, and not in a record or data."""
    last = ""
    for l in read(path).split("\n"):
        if l == line:
            return last.startswith("module")
        if l and not l[0].isspace() and not l.startswith("--"):
            last = l
    return False


def imported():
    names = set()
    for path in sources(".antt") + sources(".rt"):
        for m in re.finditer(r"use [^\n{]*\{([^}]*)\}", read(path)):
            names |= {w.strip() for w in m.group(1).split(",")}
    return names


def snake(word):
    return re.sub(r"(?<=[a-z0-9'])([A-Z])", lambda m: "_" + m.group(1).lower(), word)


def camel(name):
    return "".join(w[:1].upper() + w[1:] for w in re.split(r"[-_]", name))


def respelled(name, kinds, names):
    if "fact" in kinds:
        return camel(name) if "-" in name else name
    if name[:1].isupper():
        return name
    parts = [snake(p) for p in name.split("-")]
    if "def" in kinds:
        return "_".join(parts)
    out = parts[0]
    for a, b in zip(parts, parts[1:]):
        out += ("-" if a in names and b in names else "_") + b
    return out


def renaming():
    found = declared()
    names = imported() | set(found)
    names |= {snake(n) for n in names}
    turned = {}
    for name, kinds in found.items():
        if re.match(r"[\w'-]+$", name) and (re.search(r"[a-z][A-Z]", name) or "-" in name):
            new = respelled(name, kinds, names)
            if new != name:
                turned[name] = new
    together = collections.defaultdict(list)
    for name in found:
        together[turned.get(name, name)].append(name)
    for new, olds in together.items():
        for old in olds if len(olds) > 1 else []:
            if found[old] == {"lemma"}:
                turned[old] = new + "_lem"
    return turned, found


def clashes(turned):
    tokens = set()
    for path in sources(".antt"):
        tokens |= set(SPLIT.split(read(path)))
    functions = set()
    for path in sources(".rt"):
        functions |= set(re.findall(r"\bfn (\w+)", read(path)))
    by_new = collections.defaultdict(list)
    for old, new in turned.items():
        by_new[new].append(old)
    for new, olds in sorted(by_new.items()):
        said = []
        if len(olds) > 1:
            said.append("two names: " + " ".join(olds))
        if new in tokens and new not in turned:
            said.append("a word already")
        if new in functions:
            said.append("a function of src/")
        if said:
            print(f"{' '.join(olds)} -> {new}: {'; '.join(said)}")


def turn(text, turned):
    """The text with its names respelled; the path of a module stays."""
    aliases = set(re.findall(r"(?m)^use [^\n{]*(?:\.| as )([\w']+)$", text))
    out = []
    for i, part in enumerate(re.split(r"(Rattle(?:\.[^\s.{}();,]+)+)", text)):
        pieces = SPLIT.split(part)
        for k, t in enumerate(pieces):
            field = k > 1 and pieces[k - 1] == "." and pieces[k - 2] not in aliases
            if i % 2 == 0 and t in turned and not (field and PLAIN.match(t)):
                pieces[k] = turned[t]
        out.append("".join(pieces))
    return "".join(out)


def turn_line(line, turned):
    """A line of .rt: its comment and its strings stay."""
    parts = re.split(r'("(?:[^"\\]|\\.)*")', line)
    out = []
    for i, p in enumerate(parts):
        if i % 2:
            out.append(p)
            continue
        cut = p.find("//")
        if cut >= 0:
            out.append(turn(p[:cut], turned) + p[cut:] + "".join(parts[i + 1 :]))
            break
        out.append(turn(p, turned))
    return "".join(out)


def main(argv):
    if not os.path.isdir("crates"):
        print("spell: run it at the top of the repository", file=sys.stderr)
        return 2
    turned, _ = renaming()
    clashes(turned)
    if "--list" in argv:
        for old, new in sorted(turned.items()):
            print(old, new)
        return 0
    for path in sources(".antt"):
        with open(path, "w", encoding="utf-8") as f:
            f.write(turn(TEXTS[path], turned))
    for path in sources(".rt"):
        with open(path, "w", encoding="utf-8") as f:
            odd = {old: new for old, new in turned.items() if not PLAIN.match(old)}
            f.write("\n".join(turn_line(l, odd) for l in TEXTS[path].split("\n")))
    for path in ["README.md"] + sorted(glob.glob("docs/*.md")):
        with open(path, "w", encoding="utf-8") as f:
            f.write(re.sub(r"`[^`\n]+`", lambda m: turn(m.group(0), {old: new for old, new in turned.items() if not PLAIN.match(old)}), TEXTS[path]))
    print(f"spell: {len(turned)} names respelled")
    return 0


TEXTS = {p: read(p) for p in sources(".antt") + sources(".rt") + ["README.md"] + sorted(glob.glob("docs/*.md")) if os.path.exists(p)}

if __name__ == "__main__":
    raise SystemExit(main(sys.argv[1:]))
