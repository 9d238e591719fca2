#!/usr/bin/env python3
"""Lists the definitions on which statements rest: what has to be read to believe them, in reading order.

    tools/spec_closure.py [--write FILE] [STATEMENT..]

A STATEMENT is CRATE.MODULE.NAME, a definition of crates/CRATE/specs/MODULE.antt. Without any, three lists are made, each without what is
in an earlier one: the headline over the lists that a world lends; the same with the protocol behind it; a transcript. A list goes from
a statement to what it names: a file for each row, its lines, how many of them aren't blank, and its definitions. Rust's types that the
definitions name come last. --write puts the three lists into a document, by subjects, in the place of those that are there: run it with
docs/PROOFS.md after a change of `specs/`.

It goes by names and `use` lines, so a name that is bound again in a definition may bring one definition too many.
"""

import argparse
import collections
import os
import re
import sys
from typing import NamedTuple

CRATES = os.path.join(os.path.dirname(os.path.dirname(os.path.abspath(__file__))), "crates")
LISTS = (
    ("**1. The headline over the lists alone** (`IsExplained`, `HasChosen`, `BringValid`)",
     ["world_model.Explaining.IsExplained", "world_model.Voting.HasChosen", "world_model.Submissions.BringValid"]),
    ("**2. Then `IsSafe`, over the protocol**", ["world_model.Safety.IsSafe"]),
    ("**3. Then a transcript** (`IsReplay`)", ["replay.Runs.IsReplay"]),
)
# What the files of each list are about, by their crates or their modules; a file is of the first subject that names it.
SUBJECTS = (
    {
        "majorities; who wrote a vote; what is chosen": "synod.Majorities stable.Script world_model.Voting",
        "what explains a run": "world_model.Explaining world_model.Submissions",
        "the meaning of a list of commands": "sessions",
        "operations and replies": "store.Operations store.Replies store.Features timeindex",
        "answers": "store.Answers",
        "periods and rectangles; cuts; ever and always": "tpoint.Extents restrict predicates",
        "instants, ids, fractions, values": "tpoint",
        "documents and datetimes": "mfjson",
        "the bytes of a vote's record": "acceptor wire fields",
    },
    {
        "ballots, messages, records, the past": "synod.Ballots synod.Messages synod.Records synod.History",
        "chosen; what a node knows; actions; runs": "synod.Chosen synod.Volatile synod.Acts synod.Runs",
        "the three safety properties": "synod.Invariant",
        "safe": "world_model.Safety",
        "checkpoints: their records, texts and databases": "sessions store timeindex wire.RecordForms acceptor.Forms",
        "what a node and a world are": "",
    },
    {
        "bytes to schedule": "schedule",
        "datetimes, documents, ids, instants": "mfjson tpoint",
        "frames and records": "wire fields stable synod acceptor.Forms acceptor.Spelling",
        "the roles' rules": "acceptor learner proposer",
        "sessions": "sessions",
        "one input of a node": "node_model",
        "one event of a world; flushes; rounds; safe": "world_model",
        "lines to transcript": "replay",
        "other": "",
    },
)
START = re.compile(r"(?:abbrev |unfoldable |pub )*(?:record |data )?([^\s:({]+)")
KEYWORDS = ("abbrev ", "unfoldable ", "pub record ", "pub data ", "record ", "data ")
USE = re.compile(r"^(?:pub )?use Rattle\.([a-z_]+)\.specs\.([\w.]+?)(?:\.\{([^}]*)\}| as (\w+))\s*$", re.MULTILINE)
NAME = re.compile(r"[A-Za-z_]\w*(?:\.[A-Za-z_]\w*)*")


class Definition(NamedTuple):
    """A definition: its module, its name, its first and last line, and its text."""
    module: str
    name: str
    first: int
    last: int
    text: str


class Specs:
    """All definitions of the repository, and what each module brings in."""

    def __init__(self, crates):
        self.definitions, self.imports, self.types, self.paths = {}, {}, {}, {}
        for crate in sorted(os.listdir(crates)):
            top = os.path.join(crates, crate, "specs")
            for folder, _, files in os.walk(top):
                for file in files:
                    if file.endswith(".antt") and file != "Lib.antt":
                        self.add(os.path.join(folder, file), crate, os.path.relpath(os.path.join(folder, file), top))

    def add(self, path, crate, inner):
        """Reads a module."""
        module = crate + "." + inner[:-len(".antt")].replace("/", ".")
        with open(path, encoding="utf-8") as file:
            text = file.read()
        self.paths[module] = os.path.relpath(path, os.path.dirname(CRATES))
        self.imports[module], self.types[module] = {}, {}
        for crate_of, inner_of, names, alias in USE.findall(text):
            known = self.types[module] if inner_of.startswith("declared.") else self.imports[module]
            for name, local in imported(names, alias):
                known[local] = (crate_of + "." + inner_of, name)
        for found in definitions(module, text.split("\n")):
            self.definitions[module, found.name] = found

    def found(self, module, name):
        """The definition of this name in a module, also one that it hands on."""
        if (module, name) in self.definitions:
            return self.definitions[module, name]
        at = self.imports.get(module, {}).get(name)
        return self.found(*at) if at and at[1] else None

    def named(self, definition):
        """The definitions that a definition names, in order."""
        module, found = definition.module, []
        for word in NAME.findall(definition.text):
            head, _, rest = word.partition(".")
            at = self.imports[module].get(head)
            if at and at[1] is None:
                found.append(self.found(at[0], rest.split(".")[0]))
            else:
                found.append(self.found(*at) if at else self.definitions.get((module, head)))
        operators = [name for name in self.imports[module] if "◌" in name]
        own = [it for (of, name), it in self.definitions.items() if of == module and "◌" in name]
        found += [self.found(*self.imports[module][name]) for name in operators if name.strip("◌") in definition.text]
        found += [it for it in own if it.name.strip("◌") in definition.text]
        return [it for it in dict.fromkeys(found) if it and it != definition]

    def closure(self, statements, known):
        """All definitions on which the statements rest, but the known ones, in the order in which they are met."""
        found, waiting = {}, collections.deque(statements)
        while waiting:
            definition = waiting.popleft()
            if definition not in found and definition not in known:
                found[definition] = None
                waiting.extend(self.named(definition))
        return list(found)

    def rust_types(self, definitions):
        """Rust's types that definitions name, by the file that declares them."""
        found = collections.defaultdict(set)
        for definition in definitions:
            for word in NAME.findall(definition.text):
                at = self.types[definition.module].get(word.split(".")[0])
                if at and not at[0].startswith("std."):
                    crate, _, *inner = at[0].split(".")
                    names = [part for part in inner if part[0].isupper() and not part.startswith("The")]
                    path = "/".join(part for part in inner if part[0].islower())
                    found["crates/%s/src/%s.rt" % (crate, path)].update(names or [at[1] or word])
        return found


def imported(names, alias):
    """The names that a `use` line brings in, each with the one that it has in the module."""
    if alias:
        return [(None, alias)]
    pairs = [part.strip().split(" as ") for part in names.split(",") if part.strip()]
    return [(pair[0].strip(), pair[-1].strip()) for pair in pairs]


def definitions(module, lines):
    """The definitions of a module, each with the comment above it."""
    bare = [line.strip() for line in lines]
    ends = [i for i, line in enumerate(lines) if re.match(r" {0,2}\S", line) and bare[i].startswith((*KEYWORDS, "module ", "infix"))]
    for place, start in enumerate(ends):
        if not bare[start].startswith(KEYWORDS):
            continue
        first, last = start, (ends[place + 1] if place + 1 < len(ends) else len(lines)) - 1
        while first and bare[first - 1].startswith("--") and not bare[first - 1].startswith("-- ----"):
            first -= 1
        while last > start and (not bare[last] or bare[last].startswith("--")):
            last -= 1
        code = [lines[i] for i in range(start, last + 1) if not bare[i].startswith("--")]
        yield Definition(module, START.match(bare[start]).group(1), first + 1, last + 1, "\n".join(code))


def spans(found):
    """Line numbers of definitions of one file, neighbours put together."""
    merged = []
    for first, last in sorted((it.first, it.last) for it in found):
        if merged and first <= merged[-1][1] + 2:
            merged[-1][1] = max(last, merged[-1][1])
        else:
            merged.append([first, last])
    return ", ".join("%d-%d" % (first, last) if first != last else "%d" % first for first, last in merged)


def size(found):
    return sum(sum(1 for line in it.text.split("\n") if line.strip()) for it in found)


def report(specs, title, found):
    """Prints one list."""
    by_module = modules(found)
    print("%s: %d definitions, %d lines, %d files" % (title.replace("*", "").replace("`", ""), len(found), size(found), len(by_module)))
    for module, inside in by_module.items():
        names = ", ".join(it.name for it in sorted(inside, key=lambda it: it.first))
        print("%-44s %4d  %s\n    %s" % (specs.paths[module], size(inside), spans(inside), names))
    for path, names in sorted(specs.rust_types(found).items()):
        print("%-44s %s" % (path, ", ".join(sorted(names))))
    print()


def modules(found):
    """Definitions by their module."""
    by_module = collections.defaultdict(list)
    for definition in found:
        by_module[definition.module].append(definition)
    return by_module


def is_about(module, words):
    """Whether a module is one of these, or of one of these crates; no words stand for all."""
    return not words or any(module == word or module.startswith(word + ".") for word in words.split())


def by_subject(title, found, subjects, is_first):
    """One list as a table of a document: a row for each subject, with its folders, files and lines."""
    left = modules(found)
    what = "%d definitions, %d lines, %d files" if is_first else "%d definitions more, %d lines"
    rows = ["%s: %s." % (title, what % (len(found), size(found), len(left))[:3 if is_first else 2]), ""]
    rows += ["| Subject | Folder below `crates/`: files, with lines |", "|---|---|"]
    for subject, words in subjects.items():
        folders = collections.defaultdict(list)
        for module in [it for it in left if is_about(it, words)]:
            crate, _, file = module.partition(".")
            inside = left.pop(module)
            ends = min(it.first for it in inside), max(it.last for it in inside)
            folders[crate].append("%s %d-%d" % (file.replace(".", "/"), *ends))
        if folders:
            cells = ["`%s/specs`: %s" % (crate, ", ".join(files)) for crate, files in folders.items()]
            rows.append("| %s | %s |" % (subject, "; ".join(cells)))
    return "\n".join(rows + ["", ""])


def written(text, tables):
    """A document with these tables in the place of those that are there."""
    begin = text.index(LISTS[0][0])
    return text[:begin] + tables + text[text.index("\n## ", begin) + 1:]


def closures(specs, lists):
    """The definitions of each list, by its title, without those of the lists before it."""
    known = set()
    for title, names in lists:
        statements = [specs.found(*name.rsplit(".", 1)) for name in names]
        if None in statements:
            sys.exit("no definition %s in crates/*/specs" % names[statements.index(None)])
        found = specs.closure(statements, known)
        known.update(found)
        yield title, found


def renewed(text):
    """A document with the three lists as they are now."""
    found = enumerate(closures(Specs(CRATES), LISTS))
    return written(text, "".join(by_subject(*listed, SUBJECTS[place], place == 0) for place, listed in found))


def main():
    parser = argparse.ArgumentParser(description=__doc__, formatter_class=argparse.RawDescriptionHelpFormatter)
    parser.add_argument("statements", nargs="*", metavar="STATEMENT")
    parser.add_argument("--write", metavar="FILE", help="put the three lists into a document")
    words = parser.parse_args()
    if words.write and not words.statements:
        with open(words.write, encoding="utf-8") as file:
            text = renewed(file.read())
        with open(words.write, "w", encoding="utf-8") as file:
            file.write(text)
        return
    specs = Specs(CRATES)
    for title, found in closures(specs, [(" ".join(words.statements), words.statements)] if words.statements else LISTS):
        report(specs, title, found)


if __name__ == "__main__":
    main()
