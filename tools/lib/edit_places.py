"""Where an edit changes the sources: the functions whose bodies it changes, under the names that a check prints."""
import collections
import re

FUNCTION = re.compile(r"( *)(?:pub(?:\([\w:]+\))? )?(?:(?:const|unsafe|ghost|extern) )*fn (\w+)")
OWNER = re.compile(r"(?:unsafe )?(impl|(?:pub(?:\([\w:]+\))? )?trait)\b(.*)")

# The lines of a function: the one of its name, the one that opens its body, and its last. They count from 0.
Span = collections.namedtuple("Span", "name head opens ends owner")
# What an edit changes: the files with their new lines by number, the function of each such line by its printed name, and why it must be tried alone.
Place = collections.namedtuple("Place", "edit lines function span alone")


def spans(text):
    """The functions of a file that `rt fmt` laid out. One without a body opens at None."""
    lines, found, owner, at = text.split("\n"), [], "", 0
    while at < len(lines):
        if OWNER.match(lines[at]):
            owner = "" if lines[at].endswith("{}") else lines[at]
        elif lines[at] == "}":
            owner = ""
        head = FUNCTION.match(lines[at])
        if head:
            opens, ends = body(lines, at, head[1])
            found.append(Span(head[2], at, opens, ends, owner))
            at = ends
        at += 1
    return found


def body(lines, head, indent):
    """The lines that open and end the body of a function whose name is in the line `head`."""
    opens = None
    for at in range(head, len(lines)):
        line = lines[at]
        if opens is None and (line.endswith("{}") or line.endswith(";")):
            return None, at
        if opens is None and line.endswith("{") and (at == head or line == indent + "{" or line.startswith(indent + ")")):
            opens = at
        elif opens is not None and line == indent + "}":
            return opens, at
    return None, len(lines) - 1


def name_of_type(text):
    """The name of a type or a trait as its crate declares it, without its path."""
    found = re.match(r"\s*(?:dyn )?(?:\w+::)*(\w+)", text)
    return found[1] if found else ""


def without_parameters(text):
    """What follows the type parameters of an `impl`."""
    depth = 0
    for at, sign in enumerate(text):
        depth += (sign == "<") - (sign == ">" and text[at - 1] != "-")
        if depth == 0:
            return text[at + 1 :] if sign == ">" else text
    return text


def owners_name(owner):
    """How the names of the methods of an `impl` or a trait begin, and whether more letters can follow it."""
    kind, rest = OWNER.match(owner).groups()
    rest = re.split(r"\bwhere\b|\{", without_parameters(rest) if kind == "impl" else rest)[0]
    trait, among, named = rest.partition(" for ")
    if not among:
        return name_of_type(rest), False
    return name_of_type(named) + name_of_type(trait) + re.sub(r"\W+", "", trait.partition("<")[2]), True


def printed_name(path, span, names):
    """The name under which a check prints a function, if exactly one of the crate's names fits."""
    module = [it for it in path[len("src/") : -len(".rt")].split("/") if it != "mod"]
    module = [] if module in (["lib"], ["main"]) else module
    wanted, is_trait = owners_name(span.owner) if span.owner and span.opens is not None else ("", False)
    parts = [it.split("::") for it in names]
    fits = [it for it in parts if it[:-1][: len(module)] == module and it[-1] == span.name and len(it) == len(module) + 1 + bool(wanted)]
    if is_trait:
        fits = [it for it in fits if wanted.startswith(it[-2]) or it[-2].startswith(wanted)]
    elif wanted:
        fits = [it for it in fits if it[-2] == wanted]
        # (a method is printed in the module of its type, which may be another file)
        fits = fits or [it for it in parts if it[-2:] == [wanted, span.name]]
    return "::".join(fits[0]) if len(fits) == 1 else None


def place_of(edit, old, new, names):
    """Where an edit, which makes the texts `new` of `old`, changes the crate. Imports that it adds may go with a function."""
    lines, functions = {}, set()
    for path, text in new.items():
        before, after = old[path].split("\n"), text.split("\n")
        if len(before) != len(after):
            return Place(edit, {}, None, None, "it changes how many lines there are")
        found = spans(old[path])
        for at in (it for it in range(len(after)) if before[it] != after[it]):
            lines[path, at] = after[at]
            span = next((it for it in found if it.opens is not None and it.opens < at < it.ends), None)
            if span:
                functions.add((path, span))
            elif not (before[at].startswith("use ") and after[at].startswith("use ")):
                return Place(edit, lines, None, None, "it changes what is in no function")
    if len(functions) != 1:
        return Place(edit, lines, None, None, "it changes several functions")
    path, span = functions.pop()
    name = printed_name(path, span, names)
    return Place(edit, lines, name, (path, span), None if name else "no name of a function fits it")


def batches_of(places):
    """The places in lists of which no two change one function or one line."""
    batches = []
    for place in places:
        keys = {place.function, *place.lines}
        room = next((it for it in batches if not it[0] & keys), None)
        if room is None:
            room = (set(), [])
            batches.append(room)
        room[0].update(keys)
        room[1].append(place)
    return [it for _, it in batches]
