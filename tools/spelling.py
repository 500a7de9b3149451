#!/usr/bin/env python3
"""Brings the names of the repository's own definitions and lemmas to one spelling: words in snake case, types, facts and modules in camel case.

usage: python3 tools/spelling.py            at the top of the repository, once, right behind the turn of the sources to a newer Rattle
       python3 tools/spelling.py --dry      tells what it would do

A name with a dash that begins with a capital gets its parts joined in camel case, any other one gets underscores. Names of libraries, of goals and of
what a check makes stay, and so do strings, comments in code, inputs and outputs. Names that would fall together are told, and then nothing is written but with --force: give that where they
fall together only with functions of src/, which stand elsewhere.
"""
import os
import re
import sys

FOREIGN = re.compile(r"^(Rattle\.(std|core)\b|mathlib|Prim|lib|native|borrow|denote|logic)")
WORD = r"[A-Za-z][A-Za-z0-9_'₀₁₂₃₄₅₆₇₈₉]*"
DASHED = re.compile(r"(?<![A-Za-z0-9_'₀₁₂₃₄₅₆₇₈₉.◌+-])(" + WORD + r"(?:-" + r"[A-Za-z0-9_'₀₁₂₃₄₅₆₇₈₉]+" + r")+)(?![A-Za-z0-9_'₀₁₂₃₄₅₆₇₈₉◌-])")
AFTER_DOT = re.compile(r"(?<=\.)(" + WORD + r"(?:-[A-Za-z0-9_'₀₁₂₃₄₅₆₇₈₉]+)+)(?![A-Za-z0-9_'₀₁₂₃₄₅₆₇₈₉◌-])")
USE = re.compile(r"(?:ghost )?use ([^;\n]*?)\.\{([^}]*)\}|(?:ghost )?use ([^;{\n]*)")
DEFINED = re.compile(r"(?m)^\s*(?:abbrev )?(?:unfoldable )?(?:pub )?(?:data |record |ruleset )?(" + WORD + r"(?:-[A-Za-z0-9_'₀₁₂₃₄₅₆₇₈₉]+)+)(?=\s+(?::|\(|\{|where|=))")


# begins with a capital, and is no type
SINGLE = {"One-sided": "one_sided"}


def turned(name):
    if name in SINGLE:
        return SINGLE[name]
    parts = name.split("-")
    if name[0].isupper():
        return parts[0] + "".join(p[:1].upper() + p[1:] for p in parts[1:])
    return "_".join(parts)


def files():
    for folder, dirs, names in os.walk("crates"):
        dirs[:] = sorted(d for d in dirs if d != "out")
        for n in sorted(names):
            if n.endswith((".rt", ".antt")):
                yield os.path.join(folder, n)


def split_antt(text):
    """Pieces of the text: (is_code, piece). Comments are no code."""
    out, i = [], 0
    for m in re.finditer(r"(?m)(?:^|(?<=\s))--(?=\s|$).*$", text):
        out.append((True, text[i : m.start()]))
        out.append((False, m.group(0)))
        i = m.end()
    out.append((True, text[i:]))
    return out


def split_rt(text):
    out, i = [], 0
    for m in re.finditer(r'//[^\n]*|b?"(?:[^"\\]|\\.)*"|b?\'(?:[^\'\\\n]|\\.)\'', text):
        out.append((True, text[i : m.start()]))
        out.append((False, m.group(0)))
        i = m.end()
    out.append((True, text[i:]))
    return out


def pieces(path, text):
    return split_rt(text) if path.endswith(".rt") else split_antt(text)


def code_of(path, text):
    return "".join(p if c else " " for c, p in pieces(path, text))


def main(argv):
    texts = {p: open(p, encoding="utf-8").read() for p in files()}
    own, goals = set(), set()
    for p, t in texts.items():
        if not p.endswith(".antt"):
            continue
        code = code_of(p, t)
        made = set(re.findall(r"(?m)^(?:abbrev )?(?:pub )?(" + WORD + r"(?:-[A-Za-z0-9_'₀-₉]+)*) : (?:goal|given|need)\.", code))
        goals |= made
        own |= set(DEFINED.findall(code)) - made
        # constructors and fields stand one to a line, and so do those of a list of them
        for line in code.splitlines():
            m = re.match(r"\s+(?:pub )?((?:" + WORD + r"(?:-[A-Za-z0-9_'₀-₉]+)*\s+)+):", line)
            if m:
                own |= {w for w in m.group(1).split() if "-" in w} - made
    bad, changed, written = [], set(), {}
    for p, t in texts.items():
        code = code_of(p, t)
        foreign, imported = set(), set()
        for m in USE.finditer(code):
            where = m.group(1) or m.group(3) or ""
            names = [w.strip() for w in (m.group(2) or "").replace("\n", " ").split(",") if w.strip()]
            words = {w.split(" as ")[-1].strip() for w in names} | {w.split(" as ")[0].strip() for w in names}
            if FOREIGN.match(where) or re.search(r"\.(Goals|Given|Needs|Lts)$", where.strip()):
                foreign |= words
            else:
                imported |= words
        made = set(re.findall(r"(?m)^(?:abbrev )?(?:pub )?(" + WORD + r"(?:-[A-Za-z0-9_'₀-₉]+)*) : (?:goal|given|need)\.", code))
        keep = foreign | made | {w for w in re.findall(DASHED, code) if w.startswith("in-") and w[3:4].isupper()}
        tokens = set(re.findall(r"(?<![\w'-])" + WORD + r"(?![\w'-])", code))
        here = {}

        def turn(m):
            w = m.group(1)
            if w in keep:
                return w
            if w in goals and w not in own:
                return w
            here[w] = turned(w)
            return here[w]

        def turn_dotted(m):
            w = m.group(1)
            if w in own and w not in goals and w not in made:
                here[w] = turned(w)
                return here[w]
            return w

        new = "".join(AFTER_DOT.sub(turn_dotted, DASHED.sub(turn, piece)) if is_code else piece for is_code, piece in pieces(p, t))
        back = {}
        for w, v in here.items():
            back.setdefault(v, []).append(w)
            if v in tokens:
                bad.append(f"{p}: {w} would fall together with {v}")
            if v in foreign:
                bad.append(f"{p}: {w} would fall together with the library's {v}")
        for v, ws in back.items():
            if len(ws) > 1:
                bad.append(f"{p}: {' and '.join(sorted(ws))} would fall together")
        changed |= set(here)
        if new != t:
            written[p] = new
    print(f"{len(changed)} names in {len(written)} files")
    not_own = sorted(w for w in changed if w not in own)
    print(f"of these bound in terms only: {len(not_own)}: {' '.join(not_own)}")
    for b in bad:
        print(b)
    if bad and "--force" not in argv:
        print(f"{len(bad)} names fall together: nothing is written")
        return 1
    if "--dry" not in argv:
        for p, t in written.items():
            open(p, "w", encoding="utf-8").write(t)
    return 0


if __name__ == "__main__":
    raise SystemExit(main(sys.argv[1:]))
