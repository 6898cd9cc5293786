"""A part of tools/check-texts: everything that a page names exists.

A name is a text between backticks. With a slash or an ending it is a file, a folder or an edit (CRATE/EDIT). With '::' or an underscore it
is a name of the sources, of an edit or of a crate. Other texts between backticks are passed over.
"""
import re
from pathlib import Path

from texts import folders_of, pages_among, prose_of, text_of

ENDINGS = r"rt|antt|edit|md|sim|txt|py|sh|c|toml"
# names of the toolchain and of Rust that pages use
FOREIGN = {"must_fail", "max_reads"}
# the pages that name clauses
CLAUSES = ("docs/PROMISES.md", "docs/GAPS.md", "docs/DEFINITIONS.md")
CALL_AND_CLAUSES = re.compile(r"([\w:]+): ([\w, ]+)")


def names_of_sources(files):
    """Every word of the sources, and the names of files, folders, crates and edits."""
    names = set(FOREIGN)
    for path in files:
        names.update(Path(path).parts)
        names.add(Path(path).stem)
        if path.endswith((".rt", ".antt")) or path.startswith("tools/") or Path(path).parent.name == ".ci":
            names.update(re.findall(r"\w+", text_of(path)))
    return names


def exists(name, files, folders, names):
    """Whether a name exists, or is not a name at all."""
    if re.fullmatch(rf"[\w./-]*\.(?:{ENDINGS})", name):
        return name in files or any(it.endswith("/" + name) for it in files)
    edit = re.fullmatch(r"(\w+)/(\w+)", name)
    if edit and f"crates/{edit[1]}" in folders:
        return any(f"crates/{edit[1]}/{it}/{edit[2]}.edit" in files for it in ("must-fail", "attacks")) or f"crates/{name}" in folders
    if "NAME" in name or re.fullmatch(r"[A-Z]+(?:::[A-Z]+)+", name):
        return True
    if re.fullmatch(r"(?:crates|docs|tools|examples)(?:/[\w.-]+)*/?", name):
        return "/out/" in name + "/" or name.rstrip("/") in folders or name in files
    if re.fullmatch(r"\w+(?:::\w+)*", name) and ("_" in name or "::" in name):
        return all(it in names for it in name.split("::"))
    return True


def names_not_here(files):
    """The places of pages that name what does not exist."""
    known, folders, names, there = set(files), folders_of(files), names_of_sources(files), {}
    for page in pages_among(files):
        for at, line in enumerate(prose_of(page).split("\n"), 1):
            for name in re.findall(r"`([^`]+)`", line):
                clauses = CALL_AND_CLAUSES.fullmatch(name)
                word = clauses[1] if clauses else name
                if word not in there:
                    there[word] = exists(word, known, folders, names)
                if not there[word]:
                    yield f"{page}:{at}: names {word}, which is not here"


def pages_not_here(files):
    """The places of all files that name a page, and there is no page of this name. Names between backticks and links have checks of their own."""
    there, pages = {Path(it).name for it in files}, pages_among(files)
    for path in files:
        for at, line in enumerate(text_of(path).split("\n") if ".md" in text_of(path) else [], 1):
            shown = re.sub(r"`[^`]*`|\]\([^()]*\)", "", line) if path in pages else line
            for name in re.findall(r"\b[A-Z][A-Z_]+\.md\b", shown):
                if name not in there:
                    yield f"{path}:{at}: names the page {name}, which is not here"


def clauses_of(call, sources):
    """The names of the clauses of each function of this name; of a type, those of its own facts."""
    if call[0].isupper():
        return {it for text in sources for it in re.findall(r"\bghost (\w+) =|\bghost (\w+):", text) for it in it}
    heads = [head for text in sources for head in re.findall(rf"\bfn {call}\b.*?(?:^ *\{{|;$)", text, re.MULTILINE | re.DOTALL)]
    return {it for head in heads for it in re.findall(r"\b(?:ensures|requires) (\w+) \{", head)}


def clauses_not_here(files):
    """The places of pages that name clauses as `call: clause, clause`, and the call has no such clause. The call is looked for in the crate of
    the row's first cell, else of the heading. If neither names a crate, or that crate has no such call, it is looked for in every crate."""
    sources = {it: text_of(it) for it in files if re.match(r"crates/\w+/src/.*\.rt$", it)}
    crates = {it.split("/")[1] for it in sources}
    for page in CLAUSES:
        if page not in files:
            yield f"{page} is not here"
            continue
        heading = None
        for at, line in enumerate(prose_of(page).split("\n"), 1):
            if re.match(r"#{2,3} ", line):
                heading = line.strip("#` ")
            cell = re.match(r"\| *`(\w+)` *\|", line)
            crate = cell[1] if cell and cell[1] in crates else heading
            own = [text for it, text in sources.items() if it.startswith(f"crates/{crate}/")]
            for name in re.findall(r"`([^`]+)`", line):
                found = CALL_AND_CLAUSES.fullmatch(name)
                call = found[1].rpartition("::")[2] if found else ""
                there = (clauses_of(call, own) or clauses_of(call, sources.values())) if call else ()
                for clause in found[2].split(", ") if call else ():
                    if clause not in there:
                        yield f"{page}:{at}: {call} has no clause {clause}"
