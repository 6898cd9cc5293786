"""What the parts of tools/check-texts share: the files of the repository, and its pages."""
import functools
import re
import subprocess
from pathlib import Path

ROOT = Path(__file__).resolve().parent.parent.parent
PAGE = re.compile(r"(?:(?:docs|examples|tools)/.*|[^/]+)\.md$")
FENCED = re.compile(r"^ *(```|~~~).*?^ *\1", re.MULTILINE | re.DOTALL)


def tracked():
    """The files that git knows, or would add."""
    listed = subprocess.run(["git", "ls-files", "-co", "--exclude-standard"], cwd=ROOT, capture_output=True, text=True, check=True)
    return sorted(it for it in listed.stdout.splitlines() if (ROOT / it).is_file())


@functools.lru_cache(maxsize=None)
def text_of(path):
    return (ROOT / path).read_text(encoding="utf-8", errors="replace")


def pages_among(files):
    """The pages: the Markdown files at the top, and those of docs/, examples/ and tools/."""
    return [it for it in files if PAGE.match(it)]


def folders_of(files):
    return {str(it) for path in files for it in Path(path).parents}


@functools.lru_cache(maxsize=None)
def prose_of(page):
    """A page without its fenced code, in as many lines."""
    return FENCED.sub(lambda block: "\n" * block[0].count("\n"), text_of(page))


def line_at(text, position):
    return text.count("\n", 0, position) + 1
