"""docs/MISTAKES.md, read for tests/mistakes and tools/mistake.

A mistake is a paragraph that begins with its title in **, up to the next such title, heading or table. It has, in this order:

- the name in the second program, `--mistake NAME`;
- a trace: CALL, room R, [beta A/B,] [lo L, hi H, r N,] slot S values V .., .. [, record F/W/B, ..]: gives X; right is Y
- its edits, in a list: - `crate/edit`, ..[: a sentence of their own]. Not provable: what the prover could not show.

More names, traces and edits can follow; an edit belongs to the traces before it that no other edit's list parts from it. In a table's row the cells are
the title, the name, the trace, what the mistake gives, what is right, the edits, and 'Not provable:' with what the prover could not show.
The mistake of a schedule that is called best has no name, and this for its trace:
Room R, slot S values V .., ..: plain greedy sends value X, PG at most Y for every beta, the plan Z."""
import dataclasses, re

CALLS = {"Plain greedy": "greedy", "PG": "pg", "MF": "mf", "The plan": "plan", "The audit": "audit", "The port": "port"}
ENTRY = r"\d+/\d+/\d+"
SLOTS = r"(?:, slot \d+ values? \d+(?: \d+)*)+"
TRACE = (
    rf"(?P<call>{'|'.join(CALLS)}), room (?P<room>\d+)"
    r"(?:, beta (?P<num>\d+)/(?P<den>\d+))?(?:, lo (?P<lo>\d+), hi (?P<hi>\d+), r (?P<r>\d+))?"
    rf"(?P<slots>{SLOTS}|, no packets)"
    rf"(?:, record (?P<record>{ENTRY}(?:, {ENTRY})*))?"
)
EDITS = r"`\w+/\w+`(?:, `\w+/\w+`)*"
PART = re.compile(
    r"`--mistake (?P<name>[\w-]+)`"
    rf"|{TRACE}: gives (?P<gives>[^;]+); right is (?P<right>(?:{ENTRY}(?:, )?)+|fault \d+ at \d+)"
    rf"|^Room (?P<best_room>\d+)(?P<best_slots>{SLOTS}): plain greedy sends value (?P<greedy>\d+), PG at most (?P<pg>\d+) for every beta, the plan (?P<plan>\d+)\."
    rf"|^- (?P<edits>{EDITS})(?:: (?P<own>[^\n]+?))?\. Not provable: (?P<fact>[^\n]+)\.$",
    re.M,
)
NAMED_ROWS = re.compile(r"\brows? (P\d+(?:(?:, | and )P\d+)*)")


def packets(slots):
    """The slots and the values of a trace's words, as lists of numbers."""
    pairs = [(int(slot), int(value)) for slot, of in re.findall(r"slot (\d+) values? ([\d ]+)", slots) for value in of.split()]
    return [slot for slot, _ in pairs], [value for _, value in pairs]


def joined(numbers):
    return ",".join(map(str, numbers)) or "-"


def answer(right, said):
    """What the second program's --run said, in the words in which the page says what is right: its first line, or what is looked at in the totals."""
    first, totals = (said.split("\n") + ["", ""])[:2]
    if right.startswith("most held ") and totals:
        return f"most held {totals.split()[-1]}"
    if right == "accepted, totals 0" and totals.split() == ["0"] * 13:
        return right
    return first


@dataclasses.dataclass
class Trace:
    """One trace, the mistake's name, what the mistake gives and what is right."""

    text: str
    name: str
    gives: str
    right: str
    slots: list
    values: list
    words: list  # what --run takes

    @staticmethod
    def of(found, name, gives, right):
        slots, values = packets(found["slots"])
        parameters = [found[name] for name in ("num", "den", "lo", "hi", "r") if found[name]]
        words = [CALLS[found["call"]], found["room"], joined(parameters), joined(slots), joined(values)]
        if found["call"] == "The audit":
            words.append((found["record"] or "-").replace(" ", ""))
        text = found[0].split(": gives ")[0]
        return Trace(text, name, gives, right.removesuffix(", "), slots, values, words)


@dataclasses.dataclass
class Best:
    """The trace of a schedule that is called best, and the value that each sends."""

    text: str
    room: str
    slots: list
    values: list
    greedy: int
    pg: int
    plan: int


@dataclasses.dataclass
class Edit:
    """What the page tells of one must-fail edit."""

    sentence: str
    fact: str
    traces: list


class Page:
    def __init__(self, text):
        self.traces = []
        self.best = []
        self.edits = {}  # CRATE/NAME: Edit
        self.rows = []  # a mistake's name, and a row of P1 to P12 that it breaks
        self.unread = []
        for part in re.split(r"^(?=\*\*|## |\| )", text, flags=re.M):
            if part.startswith("| "):
                row, _, part = part.partition("\n")
                self.row(row)
            self.paragraphs(part)
        for edit in re.findall(r"`(?!crate/name`|tests/)(\w+/\w+)`", text):
            if edit not in self.edits:
                self.unread.append(f"the edit {edit} stands in no list or row with 'Not provable:'")

    def tell(self, edits, *told):
        for edit in re.findall(r"\w+/\w+", edits):
            if edit in self.edits:
                self.unread.append(f"the edit {edit} is told of twice")
            self.edits[edit] = Edit(*told)

    def breaks(self, name, text):
        self.rows += [(name, row) for rows in NAMED_ROWS.findall(text) for row in re.findall(r"P\d+", rows)]

    def row(self, row):
        cells = [cell.strip() for cell in row.strip("|").split("|")]
        if cells[0] == "Version":
            return
        if len(cells) == 7:
            title, name, trace, gives, right, edits, fact = cells
            found, name = re.fullmatch(TRACE, trace), re.fullmatch(r"`([\w-]+)`", name)
            if found and name and re.fullmatch(EDITS, edits) and fact.startswith("Not provable: "):
                one = Trace.of(found, name[1], gives, right)
                self.traces.append(one)
                self.tell(edits, title + ".", fact.removeprefix("Not provable: "), [one])
                self.breaks(name[1], fact)
                return
        self.unread.append(f"not in the form of a mistake with its name and trace: {row}")

    def paragraphs(self, text):
        title = re.match(r"\*\*(.+?)\*\*", text)
        first, name, these, told, read, best = None, None, [], False, 0, 0
        for found in PART.finditer(text):
            if found["name"]:
                name = found["name"]
                first = first or name
            elif found["edits"]:
                sentence = found["own"] and found["own"][0].upper() + found["own"][1:] + "."
                sentence = sentence or (title and title[1])
                if sentence:
                    self.tell(found["edits"], sentence, found["fact"], these)
                told = True
            else:
                if told:
                    these, told = [], False
                if found["best_room"]:
                    slots, values = packets(found["best_slots"])
                    sent = [int(found[who]) for who in ("greedy", "pg", "plan")]
                    these.append(Best(found[0].split(": plain")[0], found["best_room"], slots, values, *sent))
                    self.best.append(these[-1])
                    best += 1
                elif name:
                    these.append(Trace.of(found, name, found["gives"], found["right"]))
                    self.traces.append(these[-1])
                    read += 1
        if first:
            self.breaks(first, text)
        if read != text.count("right is") or title and not read and not best:
            lines = [line for line in text.splitlines() if "right is" in line] or text.splitlines()
            self.unread.append(f"not in the form of a mistake with its name and trace: {lines[0]}")
