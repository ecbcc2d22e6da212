#!/usr/bin/env python3
"""Brings this repository's own definitions and lemmas to snake case, as 'fullRun' to 'full_run'. It goes by spelling.

usage: respell.py [FOLDER]     (FOLDER is the repository's top; the default is where this script's folder lies)

It turns each word that begins with a small letter and has a hump, in crates/*/specs and crates/*/proofs, in the contracts and
comments of crates/*/src, and in comments' and pages' words: no name of src/, no exported name and no string has that form.
It prints each name that a definition now has in common with a function of src/ whose answer it says.
"""
import collections
import pathlib
import re
import sys

TOP = pathlib.Path(sys.argv[1] if len(sys.argv) > 1 else pathlib.Path(__file__).resolve().parent.parent)
WORD = re.compile(r"[^\s(){}.;,:\"`«»\[\]/|]+")
HUMP = re.compile(r"(?<=[a-z0-9'])([A-Z])")
# lemmas whose definitions would take their names
APART = {"table": {"same_row": "same_row-equal"}, "figures": {"split_by": "split_by-sum"}, "text": {"on_line": "on_line-in"}}
PAGES = ["README.md", "docs/DECISIONS.md", "docs/PROMISES.md", "docs/SPEED.md", "docs/TABLE.md"]


def turned(word):
    """Each part between hyphens that begins small, in snake case."""
    if re.match(r"[A-Z]", word) or not HUMP.search(word):
        return word
    parts = [p if re.match(r"[A-Z]", p) else HUMP.sub(lambda m: "_" + m.group(1).lower(), p) for p in word.split("-")]
    return "-".join(parts)


def files():
    for crate in sorted((TOP / "crates").iterdir()):
        for end in ("specs/**/*.antt", "proofs/**/*.antt", "src/**/*.rt"):
            yield from sorted(p for p in crate.glob(end) if "out" not in p.relative_to(crate).parts)


def main():
    texts = {p: p.read_text() for p in files()}
    if not any(turned(w) != w for t in texts.values() for w in WORD.findall(t)):
        return  # done before: its new names would be taken for old ones
    for path in texts:
        apart = APART.get(path.relative_to(TOP / "crates").parts[0], {}) if path.suffix == ".antt" else {}
        texts[path] = WORD.sub(lambda m: apart.get(m.group(0), m.group(0)), texts[path])
    words = collections.Counter(w for t in texts.values() for w in WORD.findall(t))
    made = collections.defaultdict(set)
    for w in words:
        made[turned(w)].add(w)
    for new, olds in sorted(made.items()):
        if len(olds) > 1:
            print(f"respell: look at {' '.join(sorted(olds))}: a function of src/ and its definition have one name")
    turns = {w: turned(w) for w in words if turned(w) != w}
    for path, text in texts.items():
        texts[path] = WORD.sub(lambda m: turns.get(m.group(0), m.group(0)), text)
    now = {w for t in texts.values() for w in WORD.findall(t)}
    # a page's word that no file has, and that one word of the code is but for humps and hyphens, is that word
    alike = collections.defaultdict(set)
    for w in now:
        alike[w.replace("-", "_")].add(w)

    def of_page(match):
        word = match.group(0)
        found = {turned(word)} & now or alike.get(turned(word).replace("-", "_"), set())
        return found.copy().pop() if word not in now and len(found) == 1 and re.search(r"[-A-Z]", word[1:]) else word

    for name in PAGES:
        path = TOP / name
        if path.is_file():
            text = path.read_text()
            texts[path] = re.sub(r"`[^`\n]*`", lambda m: m.group(0) if ".txt" in m.group(0) else WORD.sub(of_page, m.group(0)), text)
    for path, text in texts.items():
        if text != path.read_text():
            path.write_text(text)
    print(f"respell: {len(turns)} names")


if __name__ == "__main__":
    main()
