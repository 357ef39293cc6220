"""What the tests share: where things are, and running the tools."""

import os
import re
import subprocess
import sys

TESTS = os.path.dirname(os.path.abspath(__file__))
TOOLS = os.path.dirname(TESTS)
TOP = os.path.dirname(TOOLS)
sys.dont_write_bytecode = True
if TOOLS not in sys.path:
    sys.path.insert(0, TOOLS)

# The proved program, where tools/tests/run found one.
PROGRAM = os.environ.get("SPUR_PROVED", "")

from spurtrace.history import History  # noqa: E402
from spurtrace.trace import Trace  # noqa: E402


def bytes_of(*path):
    """The bytes of a file of the repository."""
    with open(os.path.join(TOP, *path), "rb") as file:
        return file.read()


def history_of(data):
    """A history that was gone through, with its moments."""
    history = History(Trace(data))
    return history, list(history.moments())


def states_of(data, at):
    """The states of a block at all boards, before the first entry and after each: a word an entry, a letter a board."""
    history = History(Trace(data))
    words = ["".join(letters(history.machine, at))]
    for _moment in history.moments():
        words.append("".join(letters(history.machine, at)))
    return " ".join(words)


def letters(machine, at):
    """A letter for each state: a point, U, N, E."""
    return [".UNE"[state] for state in machine.states(at)]


def run(tool, words, data, env=None):
    """Runs a tool, and gives its exit status, its output and what it said."""
    made = subprocess.run([os.path.join(TOOLS, tool)] + words, input=data, stdout=subprocess.PIPE, stderr=subprocess.PIPE, env=env)
    return made.returncode, made.stdout, made.stderr


def judged(text, trace, *words):
    """The verdict of the proved program on a trace."""
    made = subprocess.run([PROGRAM, "check"] + list(words), input=text + trace, stdout=subprocess.PIPE)
    return made.returncode, made.stdout.decode()


def traces_of_document(*path):
    """The traces that stand in a document, indented."""
    text = bytes_of(*path).decode()
    found = re.findall(r"^    %trace 1 \d+ \d+ \d+\n(?:    .*\n)+", text, re.M)
    return [re.sub(r"^    ", "", trace, flags=re.M).encode() for trace in found]


def traces_of_source(*path):
    """The traces that stand in a source file as texts."""
    text = bytes_of(*path).decode()
    found = re.findall(r'"[^"]*%trace 1 \d+ \d+ \d+\\n[^"]*"', text)
    joined = [re.sub(r"\\n(\\\n\s*)?", "\n", trace.strip('"').replace("\\n\\\n", "\\n\\\n")) for trace in found]
    return [trace.encode() for trace in joined if "{" not in trace]
