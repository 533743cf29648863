#!/usr/bin/env python3
"""Looks up what the repository's documents name.

    check_documents.py             fails where a document names what isn't there
    check_documents.py --closure   lists the spec files that RunsTo rests on, and how many lines they have

Of each .md file it looks up
- each link: the file, and the heading where the link has an anchor;
- each piece of inline code that looks like a name: an identifier, a path, a file name or a call. An identifier has to
  stand in the sources (crates/*/src, specs and proofs, bench, evidence, clients, examples and the scripts in docs),
  comments left out;
- that no line outside of code fences is longer than 120 characters, table rows included.
Code fences are left alone, and so are names in capitals, which are SQL. README.md and docs/THEOREM.md have to agree
with the closure of RunsTo: its counts, and each of its files.

It prints file:line and the name for each, and exits with 1 if there is any.
"""

import os
import re
import sys
from functools import lru_cache
from pathlib import Path

ROOT = Path(__file__).resolve().parent.parent
LONGEST_LINE = 120
PRUNED = {".git", "out", "__pycache__", "must-fail"}
# What the benches leave.
MEASURED = ROOT / "bench" / "data"
SOURCES = ("crates/*/src", "crates/*/specs", "crates/*/proofs", "bench", "evidence", "clients", "examples", "docs")
SOURCE_KINDS = {".rt", ".antt", ".py", ".sql", ".c", ".h", ".rs"}
FILE_KINDS = {"rt", "antt", "py", "md", "sql", "out", "csv", "svg", "txt", "toml", "json", "c", "h", "rs"}

# What documents may name that the sources don't: the kit's command and crates, and tools of the host.
FOREIGN = {
    "rt", "csv", "byteorder", "indexmap", "itoa", "clap", "memchr", "std",
    "sqlite3", "git", "python3", "clang", "glibc", "madvise", "perf", "g++", "cargo", "nm",
    "malloc", "memcpy", "memmove", "memset",
}
FOREIGN_PATTERNS = [re.compile(p) for p in (r"rattle-kit-\w+", r"GLIBC_TUNABLES", r"glibc\..*", r"TIME_RT_\w+")]

STATEMENTS = set("ALTER CREATE DROP TABLES INSERT UPDATE DELETE SELECT REBUILD LOAD SAVE OPEN STATS SET WHERE AND OR NOT"
                 " USING VALUES WITH".split())
IDENTIFIER = re.compile(r"[^\W\d][\w']*(?:-[a-zA-Z]\w*)*")
NAME = re.compile(r"^[A-Za-z_]\w*$")
SPAN = re.compile(r"(`+)(.+?)\1")
LINK = re.compile(r"!?\[(?:[^\[\]]|\[[^\]]*\])*\]\(([^()\s]+(?:\([^()]*\))?)(?:\s+\"[^\"]*\")?\)")
REFERENCE = re.compile(r"^\s*\[[^\]]+\]:\s*(\S+)")


def walk(top):
    """The files under a folder, but those that a build leaves."""
    for folder, folders, files in os.walk(top):
        folders[:] = sorted(f for f in folders if f not in PRUNED and Path(folder, f) != MEASURED)
        for name in sorted(files):
            yield Path(folder) / name


def without_comments(path, text):
    if path.suffix in (".rt", ".rs", ".c", ".h"):
        text = re.sub(r"/\*.*?\*/", " ", text, flags=re.S)
        return re.sub(r"//.*", " ", text)
    if path.suffix == ".antt":
        return re.sub(r"--.*", " ", text)
    if path.suffix == ".py":
        return re.sub(r"^\s*#.*", " ", text, flags=re.M)
    return text


@lru_cache(maxsize=None)
def sources():
    """All identifiers of the sources, and the names of all files and folders."""
    names, files = set(), set()
    for pattern in SOURCES:
        for top in ROOT.glob(pattern):
            for path in walk(top):
                if path.suffix in SOURCE_KINDS:
                    text = without_comments(path, path.read_text(encoding="utf-8", errors="replace"))
                    if path != Path(__file__).resolve():
                        names.update(IDENTIFIER.findall(text))
                        names.update(re.findall(r"\w+", text))
    for path in walk(ROOT):
        parts = path.relative_to(ROOT).parts
        files.add(path.name)
        if not {"proofs", "evidence"} & set(parts):
            names.update((path.stem, *parts))
    names.update(re.findall(r"\w+", (ROOT / "crates.txt").read_text()))
    return names, files


@lru_cache(maxsize=None)
def members():
    """Of each type and trait of the crates, the names of its functions, variants and fields."""
    found = {}
    item = re.compile(r"^(?:pub(?:\([^)]*\))? )?(?:unsafe )?(impl|trait|enum|struct)\b([^{;]*)[{;(]?", re.M)
    for top in [*ROOT.glob("crates/*/src"), ROOT / "clients/rust/src"]:
        for path in walk(top):
            text = without_comments(path, path.read_text(encoding="utf-8", errors="replace"))
            for match in item.finditer(text):
                end = re.compile(r"^}", re.M).search(text, match.end())
                body = text[match.end() : end.start() if end else len(text)]
                inside = set(re.findall(r"\b(?:fn|const|type|ghost) (\w+)", body))
                if match[1] in ("enum", "struct"):
                    inside.update(re.findall(r"^\s+(?:pub(?:\([^)]*\))? )?(\w+)", body, flags=re.M))
                header = re.sub(r"\bwhere\b.*", "", match[2], flags=re.S)
                for name in re.findall(r"[A-Z]\w+", header):
                    found.setdefault(name, set()).update(inside)
    return found


@lru_cache(maxsize=None)
def anchors(path):
    """The anchors of a document's headings, as hosts of Markdown make them."""
    found, fenced = set(), False
    for line in path.read_text(encoding="utf-8").splitlines():
        if line.lstrip().startswith(("```", "~~~")):
            fenced = not fenced
        heading = re.match(r"#{1,6}\s+(.*?)\s*#*$", line)
        if heading and not fenced:
            text = re.sub(r"!?\[([^\]]*)\]\([^)]*\)", r"\1", heading[1]).replace("`", "")
            base = re.sub(r"[^\w\- ]", "", text.strip().lower()).replace(" ", "-")
            anchor, n = base, 0
            while anchor in found:
                n += 1
                anchor = f"{base}-{n}"
            found.add(anchor)
    return found


def link_fault(document, target):
    """Why a link leads nowhere, or None."""
    if re.match(r"[a-z][a-z+.\-]*:", target):
        return None
    name, _, anchor = target.partition("#")
    path = (document.parent / name).resolve() if name else document
    if not path.exists():
        return "link to a file that isn't there"
    if anchor and path.suffix == ".md" and anchor.lower() not in anchors(path):
        return "link to a heading that isn't there"
    return None


def is_path_there(document, text):
    text = text.rstrip("/")
    if "out" in Path(text).parts:
        return True
    for top in (ROOT, document.parent, ROOT / "crates", ROOT / "docs"):
        if any(top.glob(text)):
            return True
    return any((ROOT / "crates").glob("*/" + text))


def is_name(word):
    """Whether a word of inline code is to be looked up: in capitals, or one letter, it is SQL or a variable."""
    if not NAME.match(word) or len(word) < 3 or word.upper() == word and "_" not in word:
        return False
    return True


def is_telling(word):
    """Whether a word among others looks like code: with _ in it, or with capitals in CamelCase."""
    return is_name(word) and ("_" in word.strip("_") or re.match(r"^[A-Z][a-z0-9]+[A-Z]", word) is not None)


def name_faults(document, span):
    """The names of a piece of inline code that stand nowhere."""
    names, files = sources()
    text = span.strip()
    if text in FOREIGN or any(p.fullmatch(text) for p in FOREIGN_PATTERNS):
        return []
    if " " in text or "\t" in text:
        words = text.split()
        if words[0].upper() in STATEMENTS and words[0] == words[0].upper():
            return []
        bare = [re.sub(r"^\W+|\W+$", "", w) for w in words]
        faults = [w for w in bare if is_telling(w) and w not in names]
        faults += [w for w in bare if re.fullmatch(r"[\w.\-]+(/[\w.\-]+)+", w) and not is_path_there(document, w)]
        if is_name(words[0]) and words[0] not in names | FOREIGN and words[0] not in faults:
            faults.append(words[0])
        return faults
    if "/" in text:
        if text.startswith(("/", "~", "-", "http")) or not re.fullmatch(r"[\w./*\-]+", text):
            return []
        return [] if is_path_there(document, text) else [text]
    kind = re.fullmatch(r"[\w\-*]+\.(\w+)", text)
    if kind and kind[1] in FILE_KINDS:
        if "*" in text:
            return []
        return [] if text in files else [text]
    text = re.sub(r"(\(.*\)|!)$", "", text)
    parts = re.split(r"::|\.", text)
    faults = [p for p in parts if is_name(p) and p not in names and p not in FOREIGN]
    owned = re.fullmatch(r"(?:\w+::)*([A-Z]\w+)::(\w+)", text)
    if not faults and owned and owned[2] not in members().get(owned[1], {owned[2]}):
        return [text]
    return faults


def faults_of(document):
    fenced = False
    for number, line in enumerate(document.read_text(encoding="utf-8").splitlines(), 1):
        if line.lstrip().startswith(("```", "~~~")):
            fenced = not fenced
            continue
        if fenced:
            continue
        if len(line) > LONGEST_LINE:
            what = "table row" if line.lstrip().startswith("|") else "line"
            yield number, line[:40] + "..", f"{what} of {len(line)} characters"
        for match in SPAN.finditer(line):
            for name in name_faults(document, match[2]):
                yield number, name, "stands nowhere in the sources"
        bare = SPAN.sub(lambda m: "x" * len(m[0]), line)
        targets = [m[1] for m in LINK.finditer(bare)]
        reference = REFERENCE.match(bare)
        if reference:
            targets.append(reference[1])
        for target in targets:
            fault = link_fault(document, target)
            if fault:
                yield number, target, fault


def closure():
    """The spec files that RunsTo rests on, lowest first: those of this repository that it, and what it takes, import."""
    order, seen = [], set()

    def visit(crate, module):
        path = ROOT / "crates" / crate / "specs" / f"{module}.antt"
        if path in seen or not path.exists():
            return
        seen.add(path)
        for line in path.read_text(encoding="utf-8").splitlines():
            used = re.match(r"(?:pub )?use Rattle\.(\w+)\.specs\.(\w+)", line)
            if used:
                visit(used[1], used[2])
        order.append(path)

    for path in sorted((ROOT / "crates/bw_shell/src").glob("*.rt")):
        text = path.read_text(encoding="utf-8")
        run = re.search(r"\npub fn run\b.*?\n\{\n", text, flags=re.S)
        if run:
            cited = set(IDENTIFIER.findall(" ".join(re.findall(r"(?:requires|ensures)[^\n]*", run[0]))))
            for crate, module, names in re.findall(r"ghost use Rattle\.(bw_\w+)\.specs\.(\w+)\.\{([^}]*)\}", text):
                if cited & {name.split()[-1] for name in names.split(",") if name.strip()}:
                    visit(crate, module)
    return order


def lines_of(path):
    """How many lines a spec file has, imports and blank lines left out."""
    lines = path.read_text(encoding="utf-8").splitlines()
    return sum(1 for line in lines if line.strip() and not re.match(r"(pub )?use ", line))


def closure_faults():
    files = closure()
    crates = {path.parts[-3] for path in files}
    lines = sum(map(lines_of, files))
    counts = f"{len(files)} files of `specs/`, in {len(crates)} crates: {lines:,} lines"
    readme = ROOT / "README.md"
    if counts not in " ".join(readme.read_text(encoding="utf-8").split()):
        yield readme, 1, counts, "isn't what README.md has of the closure of RunsTo"
    theorem = ROOT / "docs/THEOREM.md"
    if theorem.exists():
        text = theorem.read_text(encoding="utf-8")
        named = f"There are {len(files)} files, in {len(crates)} crates."
        if named not in " ".join(text.split()):
            yield theorem, 1, named, "isn't what the document has of the closure of RunsTo"
        for path in files:
            name = str(path.relative_to(ROOT))
            if name not in text:
                yield theorem, 1, name, "is a file of the closure of RunsTo that the document leaves out"


def main():
    if sys.argv[1:] == ["--closure"]:
        files = closure()
        for path in files:
            print(f"{lines_of(path):5}  {path.relative_to(ROOT)}")
        crates = {path.parts[-3] for path in files}
        print(f"{sum(map(lines_of, files)):5}  in {len(files)} files of {len(crates)} crates")
        return 0
    count = 0
    documents = [path for path in walk(ROOT) if path.suffix == ".md"]
    for document in documents:
        for number, name, fault in faults_of(document):
            print(f"{document.relative_to(ROOT)}:{number}: {name}: {fault}")
            count += 1
    for document, number, name, fault in closure_faults():
        print(f"{document.relative_to(ROOT)}:{number}: {name}: {fault}")
        count += 1
    print(f"{len(documents)} documents, {count} faults", file=sys.stderr)
    return 1 if count else 0


if __name__ == "__main__":
    sys.exit(main())
