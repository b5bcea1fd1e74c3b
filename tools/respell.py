#!/usr/bin/env python3
"""Brings this repository's own definitions, lemmas, record fields and constructors to the spelling of today's Rattle, after
port.py has run: words in snake case, types in camel case. Run once, at the top of the repository: python3 tools/respell.py
It goes by text. Names that Rattle makes (goals and what they cite) and names of other libraries keep their dashes.
  --list   print the names, old and new, and what falls together, and change nothing
"""
import collections
import glob
import re
import sys

WORD = r"[A-Za-z0-9_'ℕℤ₀-₉≡≤≢≟<∷⊎]+"
NAME = re.compile(rf"(?<![A-Za-z0-9_'\-ℕℤ₀-₉≡≤≢<∷⊎])({WORD}(?:-{WORD})*)(?![A-Za-z0-9_'\-ℕℤ₀-₉≡≤≢<∷⊎])")
# types and the counts that the subject names by a letter
SPECIAL = {
    "Stands-for": "StandsFor",
    "Both-answer": "BothAnswer",
    "Lowest-choice": "LowestChoice",
    "touches": "Touches",
    "N-of": "n_of", "V-of": "v_of", "K-of": "k_of", "X-of": "x_of", "R-of": "r_of",
    "N-right": "n_right", "V-right": "v_right", "K-right": "k_right", "X-right": "x_right", "R-right": "r_right",
}
# the first word of names that Rattle makes
MADE = ("returns", "invariant", "decreases", "loop", "overflow", "bounds", "slice-bounds", "offset-bounds", "nonzero", "prove", "unreachable")


def antt_files():
    return sorted(glob.glob("crates/*/specs/**/*.antt", recursive=True) + glob.glob("crates/*/proofs/**/*.antt", recursive=True))


def rt_files():
    return sorted(glob.glob("crates/*/src/**/*.rt", recursive=True))


def new_name(name):
    return SPECIAL.get(name, name.replace("-", "_"))


def code_and_comment(line, mark):
    at = line.find(mark)
    return (line, "") if at < 0 else (line[:at], line[at:])


def collect():
    """The repository's own names with a dash, and those of them that are record fields."""
    own, fields = collections.defaultdict(set), set()
    for path in antt_files():
        in_record = None
        for line in open(path, encoding="utf-8"):
            code, _ = code_and_comment(line, "--")
            if not code.strip():
                continue
            indent = len(code) - len(code.lstrip())
            if in_record is not None and indent <= in_record:
                in_record = None
            head = re.match(r"\s*(?:(?:abbrev|unfoldable|pub|mutual)\s+)*(?:(record|data|ruleset)\s+)?", code)
            rest = code[head.end():]
            if head.group(1) in ("record", "data"):
                in_record = indent
            # a signature: names, then implicit or explicit arguments, then a colon
            m = re.match(rf"({WORD}(?:-{WORD})*(?:\s+{WORD}(?:-{WORD})*)*)\s*(?::|\(|\{{)", rest)
            names = m.group(1).split() if m else []
            if m and code[head.end() + len(m.group(0)) - 1] != ":" and len(names) > 1:
                names = names[:0]
            for name in names:
                made = name.startswith(MADE) and ("goal." in code or "given." in code or rest.rstrip().endswith(":"))
                made = made or re.search(r":\s*(goal|given)\.", code) is not None
                if ("-" in name or name in SPECIAL) and not made:
                    own[name].add(path)
                    if in_record is not None and indent > in_record:
                        fields.add(name)
            # names that a `use` line gives, and names bound by let
            for name in re.findall(rf"\bas ({WORD}(?:-{WORD})+)", code):
                if "use Rattle." in code and "use Rattle.std" not in code:
                    own[name].add(path)
            for name in re.findall(rf"\blet ({WORD}(?:-{WORD})+) ?[:=]", code):
                own[name].add(path)
    for path in antt_files() + rt_files():
        for name in foreign(open(path, encoding="utf-8").read()):
            own.pop(name, None)
    return own, fields


def foreign(text):
    """Names that a file brings in from libraries that are not this repository's."""
    own_crates = {p.split("/")[1] for p in glob.glob("crates/*/src")}
    names = set()
    for m in re.finditer(r"use\s+([^\s{;]+)\.\{([^}]*)\}", text):
        parts = m.group(1).split(".")
        if not (parts[0] == "Rattle" and len(parts) > 1 and parts[1] in own_crates):
            for item in m.group(2).split(","):
                item = item.strip()
                names.add(item.split(" as ")[-1].strip())
                names.add(item.split(" as ")[0].strip())
    return names


def respell(text, own, fields, mark):
    out, brought = [], foreign(text)
    for line in text.split("\n"):
        code, comment = code_and_comment(line, mark)

        def put(m):
            name = m.group(1)
            if name not in own or name in brought and not is_field(m):
                return name
            before = code[:m.start()]
            if before.endswith("."):
                path = re.search(r"([^\s(){},;]*)\.$", before).group(1)
                head = path.split(".")[0]
                if head in ("goal", "given"):
                    return name
                if name not in fields and not re.match(r"[A-Z]", head) and head != "expected":
                    return name
            return new_name(name)

        def is_field(m):
            return m.group(1) in fields and code[:m.start()].endswith(".")

        code = NAME.sub(put, code)
        comment = re.sub(r"`[^`]*`", lambda q: NAME.sub(lambda m: new_name(m.group(1)) if m.group(1) in own and "-" in m.group(1) else m.group(1), q.group(0)), comment)
        out.append(code + comment)
    return "\n".join(out)


def main():
    own, fields = collect()
    if "--list" in sys.argv:
        back = collections.defaultdict(set)
        taken = set()
        for path in antt_files():
            for line in open(path, encoding="utf-8"):
                taken |= {n for n in re.findall(NAME, code_and_comment(line, "--")[0]) if "-" not in n}
        rust = set()
        for path in rt_files():
            for line in open(path, encoding="utf-8"):
                rust |= set(re.findall(r"[A-Za-z_][A-Za-z0-9_]*", code_and_comment(line, "//")[0]))
        for name in sorted(own):
            new = new_name(name)
            back[new].add(name)
            notes = [n for n, s in (("antt", taken), ("src", rust)) if new in s]
            print(name, new, "field" if name in fields else "", *("TAKEN-" + n for n in notes))
        for new, names in back.items():
            if len(names) > 1:
                print("FALL TOGETHER", new, sorted(names))
        return
    for path, mark in [(p, "--") for p in antt_files()] + [(p, "//") for p in rt_files()]:
        text = open(path, encoding="utf-8").read()
        new = respell(text, own, fields, mark)
        if new != text:
            open(path, "w", encoding="utf-8").write(new)


if __name__ == "__main__":
    main()
