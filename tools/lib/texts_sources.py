"""A part of tools/check-texts: edits fit the sources, examples are in tests, and lists name each program of tools/ and each file with all kinds of
values."""
import re
import subprocess
import sys
from pathlib import Path

from texts import ROOT, line_at, text_of

TESTS = re.compile(r"crates/sb_(?:\w+_tests|testing)/")
# a piece of Rust in the docstring of a file or of an item
EXAMPLE = re.compile(r"^ *//([/!]) ```rust\n((?: *//\1.*\n)*?) *//\1 ```$", re.MULTILINE)
# the list of what a new kind of value changes, and the files that may have a word for all kinds and not be in it
LIST_OF_KINDS = "docs/CHANGING.md"
NOT_LISTED = re.compile(
    rf"{re.escape(LIST_OF_KINDS)}$|docs/EDITS\.md$|CHANGELOG\.md$|tools/README\.md$|tools/(oracle|releases)/"
    r"|crates/\w+_tests/|crates/\w+/(must-fail|attacks)/"
)


def why_not_applied(path):
    """Why an edit can't be applied to the sources as they are, if it can't."""
    crate, file, texts, old, pairs = Path(path).parts[1], "", {}, None, 0
    for line in text_of(path).split("\n"):
        if line.startswith("file: "):
            file = f"crates/{crate}/{line[6:].strip()}"
            if file not in texts and not (ROOT / file).is_file():
                return f"{file} is not here"
            texts.setdefault(file, text_of(file))
        elif line.startswith("old: "):
            old = line[5:]
            if not file or texts[file].count(old) != 1:
                return f"{file} contains an 'old:' text {texts[file].count(old) if file else 0} times"
        elif line.startswith("new:") and old is not None:
            texts[file] = texts[file].replace(old, re.sub("^ ", "", line[4:]))
            old, pairs = None, pairs + 1
    return None if pairs else "it has no 'old:' and 'new:' pair"


def edits_that_do_not_apply(files):
    for path in files:
        why = why_not_applied(path) if path.endswith(".edit") else None
        if why:
            yield f"{path}: {why}"


def unbroken(code):
    """A piece of Rust without the gaps and the last commas of lists: the formatter breaks the lines of docstrings earlier than those of tests."""
    return re.sub(r",(?=[)\]}>])", "", re.sub(r"\s+", "", code))


def examples_without_test(files):
    """The roots of libraries that have no example, and the examples of docstrings that no test contains word for word. A test contains an example
    if it contains each of its functions; an empty line separates two of them."""
    tests = unbroken("\n".join(text_of(it) for it in files if re.match(r"crates/\w+_tests/src/.*\.rt$", it)))
    for path in files:
        if not re.match(r"crates/\w+/src/.*\.rt$", path) or TESTS.match(path):
            continue
        examples = list(EXAMPLE.finditer(text_of(path)))
        if re.match(r"crates/sb_\w+/src/lib\.rt$", path) and not any(it[1] == "!" for it in examples):
            yield f"{path}: has no example"
        for example in examples:
            lines = [re.sub(r"^ *//[/!] ?", "", it) for it in example[2].splitlines()]
            for function in "\n".join(lines).split("\n\n"):
                if unbroken(function) not in tests:
                    yield f"{path}:{line_at(text_of(path), example.start())}: no test contains its example as it is: {function.splitlines()[0]}"


def programs_without_row(files):
    """The programs of tools/ that its page does not name."""
    listed = text_of("tools/README.md")
    programs = [it for it in files if re.match(r"tools/(oracle/)?[^/]+$", it) and text_of(it).startswith("#!")]
    return [f"tools/README.md: does not name {it}" for it in programs if f"`{it}" not in listed]


def programs_without_help(files):
    """The programs of tools/ in Python that do not answer --help, for example because they import what does not exist."""
    for path in files:
        if Path(path).parent == Path("tools") and text_of(path).startswith("#!/usr/bin/env python3"):
            ran = subprocess.run([sys.executable, path, "--help"], cwd=ROOT, stdin=subprocess.DEVNULL, capture_output=True, text=True, timeout=60)
            if ran.returncode:
                yield f"{path}: --help ends with {ran.returncode}: {ran.stderr.strip()[-200:]}"


def files_of_values_without_row(files):
    """The files that name each kind of value, and the list of what a new kind changes does not name them."""
    section = re.search(r"^### A kind of value\n(.*?)(?=^#{1,3} |\Z)", text_of(LIST_OF_KINDS) if LIST_OF_KINDS in files else "", re.MULTILINE | re.DOTALL)
    if not section:
        yield f"{LIST_OF_KINDS}: has no list 'A kind of value'"
        return
    cases = re.search(r"^pub enum ValueRef.*?^\}", text_of("crates/sb_types/src/value.rt"), re.MULTILINE | re.DOTALL)[0]
    kinds = [it.lower() for it in re.findall(r"^    (\w+)\(", cases, re.MULTILINE)]
    listed = set(re.findall(r"[\w./-]+", section[1]))
    for path in files:
        if not NOT_LISTED.match(path) and path not in listed and set(re.findall(r"[a-z]+", text_of(path).lower())).issuperset(kinds):
            yield f"{path}: names each kind of value, and is in no row of 'A kind of value' of {LIST_OF_KINDS}"


# crates that no running node uses, and the one that declares what is looked for
FEEDING = re.compile(r"crates/(?:sb_session|sb_world|sb_script|sb_testing|attrdir_bench|sb_\w+_tests)/")


def messages_of_no_reader(files):
    """Places where a crate that a running node uses makes a received message of frames that it feeds: there a message comes out of a reader alone."""
    for path in files:
        if re.match(r"crates/\w+/src/.*\.rt$", path) and not FEEDING.match(path):
            for found in re.finditer(r"\btaken_from\b", text_of(path)):
                yield f"{path}:{line_at(text_of(path), found.start())}: makes a received message that no reader gave"


# crates whose sessions and scripts count each read; what reads from a reader; and the counters, by the names of their values
COUNTING = re.compile(r"crates/sb_(?:frames|session|control|script)/src/.*\.rt$")
READS = re.compile(r"\b(\w+)\.(?:read\w*|by_ref|chain)\(|\b(?:reader|input)\.(?:bytes|take)\(|\bBufReader\b|\bio::(?:copy|read_to_string)\b")
COUNTERS = ("steps", "last")
COUNTED_READ = ("crates/sb_frames/src/steps.rt", "reader.read(bytes)")


def reads_that_nobody_counts(files):
    """Places where a session or a script reads, or may read, and `Steps::read` does not count it."""
    for path in filter(COUNTING.match, files):
        lines = text_of(path).split("\n")
        for at, line in enumerate(lines, 1):
            for found in READS.finditer(line.partition("//")[0]):
                if found[1] not in COUNTERS and (path, line.strip()) != COUNTED_READ:
                    yield f"{path}:{at}: reads without `Steps::read`, so nobody counts it"
        if path == COUNTED_READ[0] and sum(it.strip() == COUNTED_READ[1] for it in lines) != 1:
            yield f"{path}: does not read at one place alone"
