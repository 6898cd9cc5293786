"""The program that a tool runs."""
import subprocess
import sys
from pathlib import Path

CHOOSER = Path(__file__).resolve().parent.parent / "program"


def program_at(given, is_proved=False):
    """The whole path of the program: the given one, else the one that tools/program names, which says where it is unproved. Ends the tool where
    there is none, or where it has to be proved and is not."""
    words = [CHOOSER, *["--proved"][:is_proved], *[given][: given is not None]]
    ran = subprocess.run(words, stdout=subprocess.PIPE, text=True)
    if ran.returncode:
        sys.exit(ran.returncode)
    return ran.stdout.rstrip("\n")


def is_unproved(program):
    """Whether a program is unproved: its checks at run time keep for a while what it frees."""
    return subprocess.run([CHOOSER, "--proved", program], stdout=subprocess.DEVNULL, stderr=subprocess.DEVNULL).returncode != 0
