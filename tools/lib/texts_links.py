"""A part of tools/check-texts: each link of a page to a file of the repository leads to a file, and its #anchor to a heading of that file."""
import collections
import functools
import posixpath
import re
from urllib.parse import unquote

from texts import folders_of, line_at, pages_among, prose_of

LINK = re.compile(r"\]\(<?([^()<>\s]+)>?(?: \"[^\"]*\")?\)|^\[[^\]]+\]: +(\S+)", re.MULTILINE)
# an address, or a path of a host: not a file of the repository
ELSEWHERE = re.compile(r"[a-z][a-z0-9+.-]*:|/")


def slug(heading):
    """The anchor that GitHub gives a heading."""
    shown = re.sub(r"!?\[([^\]]*)\]\([^)]*\)", r"\1", heading)
    return re.sub(r"[^\w\- ]", "", re.sub(r"[`*]", "", shown).strip().lower()).replace(" ", "-")


@functools.lru_cache(maxsize=None)
def anchors_of(page):
    """The anchors of a page's headings: the second of the same name ends in -1, the third in -2."""
    counts, found = collections.Counter(), set()
    for heading in re.findall(r"^#{1,6} +(.*?)(?: +#+)?$", prose_of(page), re.MULTILINE):
        name = slug(heading)
        found.add(f"{name}-{counts[name]}" if counts[name] else name)
        counts[name] += 1
    return found


def links_of(page):
    """The links of a page to files of the repository: the line, the file and the anchor."""
    text = re.sub(r"`[^`]*`", lambda code: re.sub(r"[^\n]", " ", code[0]), prose_of(page))
    for found in LINK.finditer(text):
        target = found[1] or found[2]
        if not ELSEWHERE.match(target):
            path, _, anchor = unquote(target).partition("#")
            whole = posixpath.normpath(posixpath.join(posixpath.dirname(page), path)) if path else page
            yield line_at(text, found.start()), whole, anchor


def links_that_lead_nowhere(files):
    """The links of pages whose file does not exist, or whose anchor no heading of that file has."""
    there = {*files, *folders_of(files)}
    for page in pages_among(files):
        for at, path, anchor in links_of(page):
            if path not in there:
                yield f"{page}:{at}: links to {path}, which is not here"
            elif anchor and path.endswith(".md") and anchor not in anchors_of(path):
                yield f"{page}:{at}: links to {path}#{anchor}, and no heading of that page has this anchor"
