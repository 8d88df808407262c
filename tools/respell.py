#!/usr/bin/env python3
"""Brings the repository's own names in specs/ and proofs/ to today's spelling, after the kit's port.py has run.

    python3 tools/respell.py [--check]      at the top of the repository

- A definition or a lemma with dashes gets underscores; a type or a fact, which begins with a capital, gets camel case.
  NAMES has the few that would fall together with another name.
- Std's predicate on lists goes by its own name, AllByRecursion.
- The crate hex is hex_text, since the toolchain has a library named hex.
- Names of src/, strings, goals that the check names (goal.x and its answer) and comments stay; code spans of comments and
  of pages follow. --check writes nothing. A second run changes nothing.
"""
import os
import re
import subprocess
import sys

# these would fall together with a field, a function of std or another name
NAMES = {
    "variable-count": "variable_count_of",
    "record-count": "record_count_of",
    "bit-or": "or_bit",
    "getD-joined": "cell_of_joined",
}
WORD = re.compile(r'[^\s(){}.;,@"«»]+')
DEFINED = re.compile(r'^\s*(?:pub |abbrev |unfoldable )*([^\s(){}.;,@"«»:]+) (?:\{[^}]*\} |\([^)]*\) )*:(?= |$)', re.M)
TYPE = re.compile(r'^\s*(?:pub |abbrev |unfoldable )*(?:record|data) ([^\s(){}.;,@"«»:]+)', re.M)
GOAL = re.compile(r":\s*goal\.")
QUIET = {".antt": re.compile(r'"(?:[^"\\\n]|\\.)*"|(?<![^\s(){}.;,@"«»])--[^\n]*'), ".rt": re.compile(r'"(?:[^"\\\n]|\\.)*"|//[^\n]*')}
SPAN = re.compile(r"`[^`\n]+`")


def files(*endings):
    for top in ("crates", "docs", "bench", "README.md"):
        if os.path.isfile(top):
            yield top
        for folder, dirs, names in os.walk(top):
            dirs[:] = sorted(d for d in dirs if d not in ("out", "must-fail"))
            for name in sorted(names):
                if name.endswith(endings):
                    yield os.path.join(folder, name)


def read(path):
    with open(path, encoding="utf-8") as f:
        return f.read()


def spelled(name):
    if name in NAMES:
        return NAMES[name]
    if name[0].isupper():
        return "".join(part[0].upper() + part[1:] for part in name.split("-"))
    return name.replace("-", "_")


def own_names():
    names = set()
    for path in files(".antt"):
        text = read(path)
        for m in DEFINED.finditer(text):
            end = text.find("\n", m.end())
            if "-" in m[1] and not GOAL.search(text[m.end() - 2 : end if end > 0 else None]):
                names.add(m[1])
        names |= {m[1] for m in TYPE.finditer(text) if "-" in m[1]}
    table = {name: spelled(name) for name in names}
    for old, new in table.items():
        for other in table:
            if other != old and table[other] == new:
                raise SystemExit(f"{old} and {other} fall together")
    return table


def words(text, table):
    def one(m):
        before = text[max(0, m.start() - 5) : m.start()]
        return m[0] if before == "goal." else table.get(m[0], m[0])

    return WORD.sub(one, text)


def quiet_kept(text, quiet, table):
    """Code is turned; a string stays; of a comment the code spans are turned."""
    out, at = [], 0
    for m in quiet.finditer(text):
        out.append(words(text[at : m.start()], table))
        out.append(m[0] if m[0].startswith('"') else SPAN.sub(lambda s: words(s[0].replace("`", "` "), table).replace("` ", "`"), m[0]))
        at = m.end()
    return "".join(out) + words(text[at:], table)


def spans(text, table):
    pattern = re.compile("|".join(rf"(?<![\w-]){re.escape(n)}(?![\w-])" for n in sorted(table, key=len, reverse=True)) or r"(?!)")
    return SPAN.sub(lambda s: pattern.sub(lambda m: table[m[0]], s[0]), text)


def std_names(text):
    if "AllByRecursion as All" not in text:
        return text
    text = text.replace("AllByRecursion as All", "AllByRecursion")
    return re.sub(r"(?<![\w.'-])All(?![\w'-])", "AllByRecursion", text)


def crate_names(text, path):
    text = re.sub(r"\bRattle\.hex\.", "Rattle.hex_text.", text)
    return re.sub(r"\buse hex::", "use hex_text::", text) if path.endswith(".rt") else text


def turned(path, table):
    text = read(path)
    ending = os.path.splitext(path)[1]
    if ending == ".md":
        return text, spans(text, table)
    return text, crate_names(std_names(quiet_kept(text, QUIET[ending], table)), path)


def move_crate(check):
    if not os.path.isdir("crates/hex/src"):
        return
    if check:
        print("crates/hex moves to crates/hex_text")
        return
    subprocess.run(["git", "mv", "crates/hex", "crates/hex_text"], check=True)
    lines = read("crates.txt").split("\n")
    lines = [line if line.startswith("#") else re.sub(r"\bhex\b", "hex_text", line) for line in lines]
    with open("crates.txt", "w", encoding="utf-8") as f:
        f.write("\n".join(lines))


def main():
    check = "--check" in sys.argv
    table = own_names()
    count = 0
    for path in list(files(".rt", ".antt", ".md")):
        if path == "docs/CASES.md":  # its code spans are lines of an input
            continue
        old, new = turned(path, table)
        if new != old:
            count += 1
            if not check:
                with open(path, "w", encoding="utf-8") as f:
                    f.write(new)
    move_crate(check)
    if not check:
        for crate in sorted(os.listdir("crates")):
            subprocess.run(["rt", "fmt"], cwd=os.path.join("crates", crate), check=True, stdout=subprocess.DEVNULL)
    print(f"{len(table)} names, {count} files")


main()
