#!/usr/bin/env python3
"""Checks the documents of the repository: README.md, docs/*.md and every other *.md.

    tools/docs_check.py [FILE..]      all of them where none is named; sizes are always of all

What it complains of, as `file:line: what`:

    sizes       README.md above 10 KB; a file of docs above 30 KB; docs together above 155 KB; the other *.md together above 33 KB
    paths       a path in backquotes that isn't in the tree
    names       a name in backquotes that stands in no file of code, definitions, examples or scripts
    counts      a figure of crates, examples, schedules, documents, mutants or tests that isn't the tree's; a figure below half of the
                tree's count, or above twice, is taken for another thing
    words       house words that have a standard term: HOUSE_WORDS
    sentences   one above 45 words; a cell of a table, an item and a heading each stand for themselves, and code counts as a word
    lists       the reading list of docs/PROOFS.md, where tools/spec_closure.py would write another
    mains       the two programs' main.rt, where they aren't the same byte for byte

It ends with 1 where it has complaints. Code blocks are looked at for words alone.
"""

import functools
import os
import re
import subprocess
import sys
from typing import NamedTuple

import spec_closure

TOP = os.path.dirname(os.path.dirname(os.path.abspath(__file__)))
KB = 1000
README, ONE, DOCS, REST = 10 * KB, 30 * KB, 155 * KB, 33 * KB
LONGEST = 45
HOUSE_WORDS = ("want of memory", "wrong body", "wrong bodies", "is told", "hundredths", "from nothing")
MAINS = "crates/mfpx/src/main.rt", "crates/mfpx_files/src/main.rt"
# Words of tools and of crates that the repository only calls, and of a shell.
OUTSIDE = set("""rt ci must fail plant seed tidy fmt doc version git man groff bash zsh source fpath gcc clang sqlite3 awk sed cat
mkdir cp grep ulimit LD_PRELOAD python3 perf stat taskset nproc ls cd cargo""".split())
COUNTED = r"crates|examples|schedules|documents|mutants|must-fail edits|tests"
UNITS = """one two three four five six seven eight nine ten eleven twelve thirteen fourteen fifteen sixteen seventeen eighteen
nineteen""".split()
TENS = "twenty thirty forty fifty sixty seventy eighty ninety".split()
SPELLED = r"(?:%s)(?:-(?:%s))?|%s" % ("|".join(TENS), "|".join(UNITS[:9]), "|".join(UNITS))
FIGURE = re.compile(r"\b(\d[\d,]*|%s) (%s)\b" % (SPELLED, COUNTED), re.IGNORECASE)
CODE = re.compile(r"`+([^`]+)`+")
SUFFIXES = r"\.(?:md|py|rt|antt|edit|schedule|transcript|json|canonical|txt)"
PATH = re.compile(r"(?:\.{0,2}/)?[A-Za-z0-9_.*<>-]+(?:/[A-Za-z0-9_.*<>-]+)+/?|[A-Za-z0-9_-]+%s" % SUFFIXES)
SOURCES = tuple(".rt .antt .edit .py .c .schedule .transcript .error .txt .1 .bash HANDLES /run _mfpx".split())
NAME = re.compile(r"[A-Za-z_][A-Za-z0-9_]*(?:(?:::|\.)[A-Za-z_][A-Za-z0-9_]*)*(?:\(\))?")
PLACEHOLDER = re.compile(r"^\w/\w$|(?<![A-Za-z])[A-Z]{2,}(?!\w*\.md)|\*|<|\.\.|^/|\bout/|nodei")
SENTENCE = re.compile(r"(?<=[.!?])[)\"*_]*\s+")


class Text(NamedTuple):
    """A piece of prose that stands for itself, and the line at which it begins."""
    line: int
    text: str


def tracked():
    """The paths of all files that git tracks, or will."""
    words = ["git", "ls-files", "--cached", "--others", "--exclude-standard"]
    done = subprocess.run(words, cwd=TOP, capture_output=True, text=True, check=True)
    return sorted(path for path in done.stdout.splitlines() if os.path.exists(os.path.join(TOP, path)))


def content(path):
    with open(os.path.join(TOP, path), encoding="utf-8", errors="replace") as file:
        return file.read()


@functools.cache
def words_of_tree():
    """Every word of the tree's code, definitions, examples and scripts, and of the names of its files."""
    found = set(OUTSIDE)
    for path in tracked():
        found.update(re.findall(r"[A-Za-z_][A-Za-z0-9_]*", path))
        if path.endswith(SOURCES):
            found.update(re.findall(r"[A-Za-z_][A-Za-z0-9_]*", content(path)))
    return found


@functools.cache
def counts_of_tree():
    """How many crates, examples and mutants there are."""
    paths = tracked()
    examples = [os.path.basename(path) for path in paths if path.startswith("crates/conformance/data/")]
    schedules, documents = (sum(name.endswith(suffix) for name in examples) for suffix in (".schedule", ".json"))
    mutants = sum("/must-fail/" in path for path in paths)
    listed = [line for line in content("crates.txt").splitlines() if re.match(r"[a-z]", line)]
    tests = sum(content(path).count("#[test]") for path in paths if path.endswith(".rt"))
    return {"crates": len(listed), "examples": schedules + documents, "schedules": schedules, "documents": documents,
            "mutants": mutants, "must-fail edits": mutants, "tests": tests}


def number(figure):
    """The number that a figure or a word is."""
    if figure[0].isdigit():
        return int(figure.replace(",", ""))
    tens, _, unit = figure.lower().partition("-")
    if tens in TENS:
        return 10 * (TENS.index(tens) + 2) + (UNITS.index(unit) + 1 if unit else 0)
    return UNITS.index(tens) + 1


def prose(lines):
    """The pieces of prose: paragraphs, items, headings and cells, without code blocks."""
    piece, start, fenced, before = [], 0, False, ""
    for at, line in enumerate(lines + [""], 1):
        if line.lstrip().startswith("```"):
            fenced = not fenced
        is_code = fenced or line.startswith("    ") and not before.strip() or line.lstrip().startswith("```")
        before = "" if is_code else line
        ends = is_code or not line.strip() or re.match(r"\s*([-*#>]|\d+\.|\|)", line)
        if ends and piece:
            yield Text(start, " ".join(piece))
            piece = []
        if is_code or not line.strip():
            continue
        if line.lstrip().startswith("|"):
            yield from (Text(at, cell.strip()) for cell in re.split(r"(?<!\\)\|", line.strip().strip("|")) if cell.strip())
            continue
        start = start if piece else at
        piece.append(re.sub(r"^\s*([-*#>]+|\d+\.)\s+", "", line).strip())


def long_sentences(piece):
    """The sentences of a piece that are too long, each with its words."""
    text = CODE.sub("code", re.sub(r"\]\([^)]*\)", "]", piece.text))
    for sentence in SENTENCE.split(text):
        count = len([word for word in sentence.split() if re.search(r"\w", word)])
        if count > LONGEST:
            yield "%d words in a sentence: %s .." % (count, " ".join(sentence.split()[:8]))


def exists(path, folder, paths):
    """Whether a path is in the tree: from the top, the document's folder, crates, a crate, docs or examples."""
    bare = path.rstrip("/").removeprefix("./")
    if PLACEHOLDER.search(path):
        return True
    bases = (".", folder, "crates", "docs", "examples", "crates/mfpx", "check", "bench", "tools")
    if any(os.path.exists(os.path.join(TOP, base, bare)) for base in bases):
        return True
    return any(known == bare or known.endswith("/" + bare) or "/" + bare + "/" in known for known in paths)


def wrong_code(code, folder, paths):
    """What is wrong with a piece of code in a line: a path or a name that isn't there."""
    for word in code.split():
        word = word.strip("(),;:'\"")
        if re.fullmatch(r"https?://.*|--.*|\d+/\d+|[0-9A-F]{2}", word):
            continue
        if PATH.fullmatch(word):
            if not exists(word, folder, paths):
                yield "no path %s" % word
        elif " " not in code and NAME.fullmatch(word) and not re.fullmatch(r"[A-Z][A-Z0-9]*", word):
            missing = [part for part in re.findall(r"[A-Za-z_][A-Za-z0-9_]*", word) if part not in words_of_tree()]
            if missing:
                yield "no name %s" % word


def complaints(path, paths):
    """All complaints about one document, each with its line."""
    lines = content(path).split("\n")
    for at, line in enumerate(lines, 1):
        after = lines[at] if at < len(lines) else ""
        for word in HOUSE_WORDS:
            spelled = re.compile(r"\b%s\b" % word.replace(" ", r"\s+"), re.I)
            if spelled.search(line) or spelled.search(line + "\n" + after) and not spelled.search(after):
                yield at, "`%s`" % word
    for piece in prose(lines):
        for code in CODE.findall(piece.text):
            yield from ((piece.line, it) for it in wrong_code(code, os.path.dirname(path), paths))
        for figure, what in FIGURE.findall(piece.text):
            right = counts_of_tree()[what.lower()]
            if right / 2 <= number(figure) <= right * 2 and number(figure) != right:
                yield piece.line, "%s %s, and the tree has %d" % (figure, what, right)
        yield from ((piece.line, it) for it in long_sentences(piece))


def sizes(documents):
    """Complaints about sizes."""
    size = {path: os.path.getsize(os.path.join(TOP, path)) for path in documents}
    docs = [path for path in documents if path.startswith("docs/")]
    rest = [path for path in documents if path not in docs and path != "README.md"]
    limits = [("README.md", size.get("README.md", 0), README)] + [(path, size[path], ONE) for path in docs]
    limits += [("docs/*.md", sum(size[path] for path in docs), DOCS), ("other *.md", sum(size[path] for path in rest), REST)]
    return ["%s: %d bytes, at most %d" % limit for limit in limits if limit[1] > limit[2]]


def other_lists():
    """A complaint about a reading list that isn't that of the definitions."""
    path = "docs/PROOFS.md"
    text = content(path)
    new = spec_closure.renewed(text)
    if new == text:
        return []
    same = next((at for at, pair in enumerate(zip(text.split("\n"), new.split("\n")), 1) if pair[0] != pair[1]), 1)
    return ["%s:%d: another reading list: tools/spec_closure.py --write %s" % (path, same, path)]


def other_mains():
    """A complaint about programs whose mains differ, where both are there."""
    mains = [content(path) for path in MAINS if os.path.exists(os.path.join(TOP, path))]
    return ["%s: not the same as %s" % MAINS] if len(set(mains)) > 1 else []


def main(words):
    paths = tracked()
    documents = [path for path in paths if path.endswith(".md")]
    chosen = [os.path.relpath(os.path.abspath(word), TOP) for word in words] or documents
    found = sizes(documents) + other_lists() + other_mains()
    for path in chosen:
        found += ["%s:%d: %s" % (path, at, what) for at, what in sorted(set(complaints(path, paths)))]
    print("\n".join(found + ["%d documents, %d complaints" % (len(chosen), len(found))]))
    return 1 if found else 0


if __name__ == "__main__":
    sys.exit(main(sys.argv[1:]))
