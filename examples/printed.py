"""Reads what the program prints: which line is which word, whose it is, and what it says."""
import re
import signal
import subprocess
import sys
from pathlib import Path

HERE = Path(__file__).resolve().parent
MODES = ["none", "silent", "full"]
NETWORK_STATES = ["none", "silent", "check", "full", "recover"]
STATUSES = ["none", "pending", "validated", "expired"]
RESULTS = ["false", "true", "undefined"]
ANSWERS = {0: "done", 4: "malformed", 5: "no such thing, or not to be asked so", 6: "not the owner's",
           8: "an outcome above 1"}


signal.signal(signal.SIGPIPE, signal.SIG_DFL)  # the scripts end quietly in a closed pipe


def words_of(usage, good=lambda words: True):
    """A script's words; how it is used, where that is asked for or the words are wrong."""
    words = sys.argv[1:]
    if words in (["--help"], ["-h"]):
        print(usage)
        sys.exit(0)
    if any(word.startswith("-") for word in words[:1]) or not good(words):
        print(usage, file=sys.stderr)
        sys.exit(2)
    return words


def program(arguments):
    """The program's command: the arguments, or the repository's own program."""
    return arguments or [str(HERE.parent / "herringcart"), "run"]


def run(command, table, events):
    """What the program prints for two files."""
    try:
        done = subprocess.run([*command, str(table), str(events)], capture_output=True, text=True)
    except OSError as why:
        sys.exit(f"cannot run {command[0]}: {why.strerror}")
    if done.returncode:
        sys.exit(f"{' '.join(command)} failed: {done.stderr.strip()}")
    return done.stdout


def words(path):
    data = path.read_bytes()
    return [int.from_bytes(data[at:at + 4], "big") for at in range(0, len(data) - 3, 4)]


def field(word, high, width):
    """The field that starts `high` bits below the top."""
    return word >> 32 - high - width & (1 << width) - 1


def things(table):
    """(section, number, owner) of each state word, in order."""
    p, n, s = (field(table[0], high, 8) for high in (8, 16, 24))
    e, r = field(table[1], 0, 16), field(table[1], 16, 16)
    found = [("port", i, field(table[3 + i], 4, 4)) for i in range(p)]
    found += [("rule", i, field(table[3 + p + 2 * n + s + e + i], 0, 4)) for i in range(r)]
    found += [("network", i, field(table[3 + p + 2 * i], 0, 4)) for i in range(n)]
    return found + [("source", i, field(table[3 + p + 2 * n + i], 0, 4)) for i in range(s)]


def steps(text, length):
    """What was printed after each event: answer, state words, trace words. An answer's line is shorter than a word's."""
    found = []
    for line in text.splitlines():
        if len(line) < 8:
            found.append((int(line), []))
        else:
            found[-1][1].append(int(line, 16))
    return [(answer, printed[:length], printed[length:]) for answer, printed in found]


def costs(text):
    """What `cost` printed: (number, answer, trace words, visits) of each event; and by its name each most, its event and its bound."""
    events = re.findall(r"^event (\d+) answer (\d+) trace (\d+) visits (\d+)$", text, re.M)
    most = re.findall(r"^most (trace|visits) (\d+) event (\d+|none) bound (\d+)$", text, re.M)
    assert len(text.splitlines()) == len(events) + len(most) and len(most) == 2, "a line that cost does not print"
    return ([tuple(map(int, event)) for event in events],
            {name: (int(number), None if event == "none" else int(event), int(bound)) for name, number, event, bound in most})


def trace_owner(word):
    return field(word, 4, 4)


def says(section, word):
    """A state word in words."""
    to_go = f", {word & 0xFFFF} to go" if word & 0xFFFF else ""
    if section == "rule":
        return RESULTS[field(word, 0, 2)]
    if section == "network":
        counter = f", counter {field(word, 5, 8)}" if field(word, 5, 8) else ""
        heard = ", heard" if field(word, 13, 1) else ""
        return f"asked {MODES[field(word, 0, 2)]}, {NETWORK_STATES[field(word, 2, 3)]}{counter}{heard}{to_go}"
    if section == "source":
        return STATUSES[field(word, 0, 2)] + to_go
    if not field(word, 0, 1):
        return "undefined"
    return f"value {field(word, 2, 8)}" + (", marked" if field(word, 1, 1) else "") + to_go


def trace_says(word, title):
    """A trace word in words; `title` gives a thing's number and name."""
    kind, a, b = field(word, 0, 4), field(word, 8, 8), word & 0xFFFF
    if kind == 15:
        return f"start of {title('list', a)}"
    if kind == 0:
        return f"outside call {b:04X}"
    if kind == 4:
        return f"asks {title('network', a)} for {MODES[b]}"
    if kind == 6:
        return f"{title('rule', a)} gives {RESULTS[b]}"
    return f"{['', 'clears', 'starts', 'stops'][kind]} {title('port', a)}"


def titles(path):
    """From truck.txt and its like: a thing's section and number to its number and name; and what each event says."""
    table, events, *_ = path.read_text().split("\n\n")
    found = re.findall(r"^ *\d+ [0-9A-F]{8}  ((port|network|source|rule|list) (\d+) [^,:]+)", table, re.M)
    return {(section, int(number)): title for title, section, number in found}, events.splitlines()[1:]
