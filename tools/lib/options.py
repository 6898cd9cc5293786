"""The commands and their options, read from commands.rt and serve_command.rt in crates/attrdir/src, where each is described once."""
import re
from pathlib import Path

ROOT = Path(__file__).resolve().parent.parent.parent
COMMANDS = [ROOT / "crates" / "attrdir" / "src" / it for it in ("commands.rt", "serve_command.rt")]
# where the numbers of limits are
LIMITS = [ROOT / "crates" / "sb_types" / "src" / it for it in ("format.rt", "limits.rt")]
# what may begin a part of the docstring of an option
PARTS = ("Greater", "Smaller", "Left out")


class Option:
    """An option or a word of a command."""

    def __init__(self, const, docs, fields, numbers):
        self.const, self.name, self.value, self.help = const, fields["name"], fields["value"], fields["help"]
        self.kind, _, inner = fields["kind"].replace("Kind::", "", 1).partition("(")
        self.words = re.findall(r'"([^"]*)"', inner)
        self.limits = limits_of(inner, numbers)
        # the sentences that pages add to the help, and the parts of PARTS
        pieces = re.split(rf"(?:^|\s)({'|'.join(PARTS)}): ", docs)
        self.more, self.notes = pieces[0].strip(), dict(zip(pieces[1::2], map(str.strip, pieces[2::2])))

    @property
    def is_option(self):
        return self.kind not in ("Word", "Words", "WordOrNone", "NumberOrNone")

    @property
    def is_flag(self):
        return self.kind.startswith("Flag")

    @property
    def takes_number(self):
        return self.kind.startswith("Number")

    @property
    def values(self):
        """The words of which it takes one."""
        return self.words[:-1] if self.kind == "OneOf" else []

    @property
    def default(self):
        """Its default, or the words that say what holds without it. None if it has neither."""
        return self.words[-1] if self.kind in ("OneOf", "ValueOr", "ValueElse", "Values", "NumberOr", "NumberElse") else None

    @property
    def sentence(self):
        """Its help with its limits, as a sentence."""
        return f"{self.help}{', ' if self.limits else ''}{self.limits}"

    @property
    def usage(self):
        """How it is written: with its value, or as one of its values."""
        name = f"--{self.name}" if self.is_option else self.name
        return f"{name} {self.value}" if self.value else f"{name}.." if self.kind == "Words" else name


def limits_of(kind, numbers):
    """The range of a kind, as the program prints it. Empty for any number."""
    found = re.search(r"Range::(Within|Seats)\(([^()]*)\)", kind)
    if not found:
        return ""
    bounds = [str(numbers[it]) if it in numbers else it for it in re.split(r",\s*", found[2])]
    return " to ".join(["workers and 2 (3 with --http)", *bounds] if found[1] == "Seats" else bounds)


def numbers_of_limits():
    """The number of each constant of sb_types that is a number, or a sum of such."""
    numbers = {}
    for path in LIMITS:
        for name, value in re.findall(r"pub const (\w+): u(?:8|64|size) = ([\w +]+);", path.read_text()):
            parts = [numbers.get(it, it.replace("_", "")) for it in value.split(" + ")]
            if all(str(it).isdigit() for it in parts):
                numbers[name] = sum(map(int, parts))
    return numbers


def text_of(literal):
    """The text of a literal of the sources, which may go on in the next line after a backslash."""
    return re.sub(r"\\\n\s*", "", literal).replace('\\"', '"').replace("\\\\", "\\")


def read():
    """The options by the names of their constants, and the commands: the name of each with its options, in the order of the help."""
    source = "\n".join(it.read_text() for it in COMMANDS)
    numbers, options = numbers_of_limits(), {}
    for docs, const, body in re.findall(r"((?:^///[^\n]*\n)*)^(?:pub\(crate\) )?const (\w+): Part = Part \{\n(.*?)^\};", source, re.M | re.S):
        fields = {name: text_of(text) for name, text in re.findall(r'^    (name|value|help): "((?:[^"\\]|\\.)*)"', body, re.M | re.S)}
        fields["kind"] = re.search(r"^    kind: (.*?),\n    value", body, re.M | re.S)[1]
        options[const] = Option(const, " ".join(re.sub(r"^/// ?", "", it) for it in docs.splitlines()), fields, numbers)
    tasks = {}
    for const, name, parts in re.findall(r'^(?:pub\(crate\) )?const (\w+): Task = Task \{\n    name: "([\w-]+)".*?parts: &\[(.*?)\]', source, re.M | re.S):
        tasks[const] = name, [options[it] for it in re.findall(r"\w+", parts)]
    order = re.findall(r"\w+", re.search(r"const TASKS: \[Task; \d+\] = \[(.*?)\];", source, re.S)[1])
    return options, dict(tasks[it] for it in order)
