"""Says in plain sentences what an entry did, and what is wrong with one that was refused."""

from .addresses import block_of, entry_block, full, layer_of, page_of, root_block
from .machine import STATES
from .trace import ACCESSES, FAULTS, PAGER

ACCESS_NAMES = ("no access", "a load", "a store", "a test-and-set")
ANSWER_NAMES = ("done",) + FAULTS
RULES = ("program", "fault", "answer", "pager", "tags", "needed")
LAYER_NAMES = {"data": "a block of data", "pte": "a block of page-table entries", "root": "a block of root entries"}
FAULT_CAUSES = {
    "align": "the address is no multiple of 4",
    "unmapped": "the page is not declared",
    "missing": "the page is in no frame",
    "leaving": "the page is leaving its frame",
    "protection": "the page may not be accessed so",
    "reference": "the page is not marked as referenced",
    "dirty": "the page is not marked as dirty",
}
PAGER_CONDITIONS = {
    1: "the page of an entry of the pager has to be declared",
    2: "a page that is marked as leaving has to be in a frame, and not leaving yet",
    3: "a page that goes out has to be in a frame, and leaving",
    4: "a page that comes in has to be on swap",
    5: "a page has to come into a data frame in which no page is",
    6: "a page that is marked as referenced has to be in a frame, and not referenced yet",
    7: "a page that is marked as dirty has to be in a frame, not dirty yet, and may be written",
    8: "a page whose mark as referenced is cleared has to be in a frame, referenced, and not leaving",
}
TAG_CONDITIONS = {
    1: "a board that loads has to have the block",
    2: "a board that writes has to own the block alone",
    3: "a board that writes needs the dirty copy of the block's line set",
    4: "a board that changes a page-table entry has to own its block alone",
    5: "a fill has to name the layer of its address",
    6: "a board that fills a block has to lack it",
    7: "a fill may not replace an owned block, which has to be written back first",
    8: "a fill of data needs the block of the page's entry in the same cache",
    9: "a fill of page-table entries needs the block of their root entry in the same cache",
    10: "a fill of data needs a page that is in a frame, referenced, not leaving and may be accessed so, and for writing is dirty",
    11: "a fill of page-table entries needs a valid root entry",
    12: "a board that claims a block has to have it, and not to own it alone yet",
    13: "a board that writes a block back has to own it",
    14: "a refresh needs the block with its dirty copy clear, and the block of the page's entry, in the same cache",
    15: "a refresh needs a page that is dirty and not leaving",
    16: "a flush needs a holder that has the block",
    17: "a flush needs a page that is leaving",
    18: "a page may only go out when no board has a block of it",
}
NEEDED_CONDITIONS = {
    1: "a board may have at most 6 fills, claims and write-backs open before the access that they are for",
    2: "each open fill and claim has to be of a block that serves the access, and each open write-back on the line of one",
    3: "each open claim and each open fill for writing has to be of the block that is written",
}
STATE_FOUND = {1, 2, 4, 6, 7, 8, 9, 12, 13, 14, 16}
WORD_FOUND = {10, 11, 15, 17}


class VerdictFault(Exception):
    """Words that are no verdict of `check`."""


def counted(number, name):
    """So many of a thing."""
    return "%d %s%s" % (number, name, "" if number == 1 else "s")


def of_page(at):
    """A page by its number and segment, with its first byte."""
    return "page %d of segment %d (%s)" % (at // 4096 % 262144, at >> 30, full(page_of(at)))


# What an entry did.


def sentence(machine, entry, step):
    """What an entry did, in one sentence, from the machine after it and the step that it was."""
    text = WHAT[entry.kind](machine, entry, step)
    changes = ["at board %d %s became %s" % (c.board, STATES[c.old], STATES[c.new]) for c in step.changes if c.block == block_of(entry.at)]
    changes += ["board %d no longer has the block %s" % (c.board, full(c.block)) for c in step.changes if c.block != block_of(entry.at)]
    if changes:
        text += "; " + ", ".join(changes)
    return "Board %d %s." % (entry.board, text)


def _load(machine, entry, _step):
    return "loads %08x from %s, which it has as %s" % (entry.value, full(entry.at), STATES[machine.state(entry.board, entry.at)])


def _store(machine, entry, _step):
    return "stores %08x to %s, which it has as %s" % (entry.value, full(entry.at), STATES[machine.state(entry.board, entry.at)])


def _tas(machine, entry, _step):
    held = STATES[machine.state(entry.board, entry.at)]
    return "reads %08x from %s and sets it to 1 in one step, and has it as %s" % (entry.value, full(entry.at), held)


def _fault(_machine, entry, _step):
    access = ACCESS_NAMES[ACCESSES.index(entry.access) + 1]
    return "is answered %s by the fault %s at %s: %s" % (access, entry.fault, full(entry.at), FAULT_CAUSES[entry.fault])


def _fill(_machine, entry, step):
    supplied = "memory supplies it" if step.supplier is None else "board %d, its owner, supplies it" % step.supplier
    need = "reading" if entry.need == "read" else "writing"
    return "fills %s, %s, for %s, and %s" % (LAYER_NAMES[entry.layer], full(entry.at), need, supplied)


def _claim(_machine, entry, _step):
    return "claims the block %s, so that it owns it alone" % full(entry.at)


def _writeback(_machine, entry, _step):
    return "writes the block %s back to memory" % full(entry.at)


def _refresh(_machine, entry, _step):
    return "sets the dirty copy of the line of %s, since its page is dirty now" % full(entry.at)


def _flush(_machine, entry, _step):
    return "flushes the block %s out of the cache of board %d, since its page is leaving" % (full(entry.at), entry.holder)


def _leave(_machine, entry, _step):
    return "marks %s as leaving its frame" % of_page(entry.at)


def _out(_machine, entry, _step):
    return "puts %s out of its frame, to its swap slot" % of_page(entry.at)


def _in(_machine, entry, _step):
    return "brings %s from its swap slot into frame %d" % (of_page(entry.at), entry.frame)


def _setref(_machine, entry, _step):
    return "marks %s as referenced" % of_page(entry.at)


def _setdirty(_machine, entry, _step):
    return "marks %s as dirty" % of_page(entry.at)


def _clearref(_machine, entry, _step):
    return "clears the mark of %s as referenced" % of_page(entry.at)


WHAT = {
    "load": _load,
    "store": _store,
    "tas": _tas,
    "fault": _fault,
    "fill": _fill,
    "claim": _claim,
    "writeback": _writeback,
    "refresh": _refresh,
    "flush": _flush,
    "leave": _leave,
    "out": _out,
    "in": _in,
    "setref": _setref,
    "setdirty": _setdirty,
    "clearref": _clearref,
}


# What is wrong with a refused entry.


def read_verdict(text):
    """A verdict's entry, rule and two numbers; None where it is `good N`."""
    words = text.split()
    if len(words) == 2 and words[0] == "good" and words[1].isdigit():
        return None
    if len(words) != 5 or words[0] != "bad" or words[2] not in RULES or not all(words[i].isdigit() for i in (1, 3, 4)):
        raise VerdictFault(text)
    rule, wanted = words[2], int(words[3])
    numbered = {"pager": PAGER_CONDITIONS, "tags": TAG_CONDITIONS, "needed": NEEDED_CONDITIONS}
    if int(words[1]) < 1 or rule in numbered and wanted not in numbered[rule]:
        raise VerdictFault(text)
    return int(words[1]), rule, wanted, int(words[4])


def entry_word(word):
    """What a page-table entry's word says."""
    if word == 0:
        return "0, which is no entry's"
    said = []
    if word & 1:
        said.append("in frame %d" % (word >> 12))
    if word & 32:
        said.append("on swap in slot %d" % (word >> 12))
    said += [name if word & bit else "not " + name for bit, name in ((2, "referenced"), (4, "dirty"), (64, "leaving"))]
    said.append(("may not be accessed", "may be read", "may be read and written", "with a protection that no entry has")[word >> 3 & 3])
    return "%d, hexadecimal %08x: %s" % (word, word, ", ".join(said))


def explained(rule, wanted, found, entry=None):
    """Which rule an entry breaks, and what the two numbers of the verdict are, in words. `found` is None where only the text would tell it."""
    return EXPLAINED[rule](wanted, found, entry)


def _number_name(names, number):
    return names[number] if number < len(names) else str(number)


def _program(wanted, found, entry):
    head = "Rule program: a board's accesses have to be those of its program, in order."
    readings = [reading for reading in _program_readings(wanted, found, entry) if reading]
    said = ", or else ".join(readings) or "the numbers are %d and %d, which are not this entry's" % (wanted, found)
    return "%s %s." % (head, said[0].upper() + said[1:])


def _program_readings(wanted, found, entry):
    """What the two numbers may be of: the access, the address, or the value of a store."""
    of_access = "the program's next access is %s, the entry is %s" % (_number_name(ACCESS_NAMES, wanted), _number_name(ACCESS_NAMES, found))
    if wanted == 0:
        of_access = "the board has no access left: it has ended, or its budget is spent; the entry is " + _number_name(ACCESS_NAMES, found)
    of_address = "the program's address is %s, the entry's is %s" % (full(wanted), full(found))
    of_value = "the program stores %d (%08x), the entry %d (%08x)" % (wanted, wanted, found, found)
    if entry is None or entry.kind not in ACCESSES + ("fault",):
        return (of_access if wanted < 4 and found < 4 else None, of_address, of_value)
    number = ACCESSES.index(entry.access or entry.kind) + 1
    if found == number and wanted < 4:
        return (of_access, of_address if entry.at == found else None)
    return (of_address if entry.at == found else None, of_value if entry.kind == "store" and entry.value == found else None)


def _fault_rule(wanted, found, _entry):
    head = "Rule fault: an access has to be answered as its page's entry says."
    should = _number_name(ANSWER_NAMES, wanted)
    if found == 0:
        return "%s The access was done (0), but the fault %s (%d) bars it: %s." % (head, should, wanted, FAULT_CAUSES.get(should, "?"))
    answered = "It was answered by the fault %s (%d)" % (_number_name(ANSWER_NAMES, found), found)
    if wanted == 0:
        return "%s %s, but it could have been done (0)." % (head, answered)
    if wanted == found:
        return "%s %s, which does not fit." % (head, answered)
    return "%s %s, but the fault that should have come is %s (%d): %s." % (head, answered, should, wanted, FAULT_CAUSES.get(should, "?"))


def _answer(wanted, found, _entry):
    return "Rule answer: a load or a test-and-set has to read the word that was last written. The word is %d (%08x), but the entry read %d (%08x)." % (
        wanted,
        wanted,
        found,
        found,
    )


def _pager(wanted, found, entry):
    text = "Rule pager, condition %d: %s." % (wanted, PAGER_CONDITIONS[wanted])
    if wanted == 1:
        return text + " It is not; the second number is always %d here." % (found or 0)
    if found is None:
        return text
    if wanted == 5:
        return text + " The entry's frame is %d." % found
    whose = "the page" if entry is None else of_page(entry.at)
    return text + " The word of the entry of %s is %s." % (whose, entry_word(found))


def _tags(wanted, found, entry):
    text = "Rule tags, condition %d: %s." % (wanted, TAG_CONDITIONS[wanted])
    if found is None:
        return text
    if wanted in STATE_FOUND:
        return text + " Found was the state %d, %s%s." % (found, _number_name(STATES, found), _which_block(wanted, entry))
    if wanted in WORD_FOUND:
        whose = "the root entry" if wanted == 11 else "the page's entry"
        return text + " The word of %s is %s." % (whose, entry_word(found))
    if wanted == 18:
        return text + " Board %d is the first that has one." % found
    if wanted == 3:
        return text + " It is clear; the second number is always 0 here."
    layer = layer_of(entry.at) if entry is not None else None
    return text + (" The layer of this address is %s; the second number is always 0 here." % layer if layer else " It names another; the second number is always 0 here.")


def _which_block(condition, entry):
    """Of which block a state is, and at which board."""
    if entry is None:
        return ""
    if condition in (4, 8, 14):
        return ", of the block %s at board %d" % (full(entry_block(entry.at)), entry.board)
    if condition == 9:
        return ", of the block %s at board %d" % (full(block_of(entry_block(entry.at))), entry.board)
    if condition == 7:
        return ", of the block that stands on the line at board %d" % entry.board
    holder = entry.holder if condition == 16 else entry.board
    return ", of the block %s at board %d" % (full(block_of(entry.at)), holder)


def _needed(wanted, found, entry):
    text = "Rule needed, condition %d: %s." % (wanted, NEEDED_CONDITIONS[wanted])
    if wanted == 1:
        return text + " This one would be number %d." % found
    what = "the first that does not serve" if wanted == 2 else "the first of another block"
    text += " Entry %d is %s." % (found, what)
    if entry is None or wanted == 1:
        return text
    return text + " " + _served(wanted, entry)


def _served(condition, entry):
    """The blocks that serve an entry, or the one that it writes."""
    blocks = [full(entry_block(entry.at)), full(root_block(entry.at))]
    if condition == 2:
        blocks = blocks if entry.kind in PAGER else [full(block_of(entry.at))] + blocks
        return "The blocks that serve entry %d are %s." % (entry.number, ", ".join(blocks))
    if entry.kind in PAGER:
        return "Entry %d writes the block %s." % (entry.number, blocks[0])
    if entry.kind in ("store", "tas"):
        return "Entry %d writes the block %s." % (entry.number, full(block_of(entry.at)))
    return "Entry %d writes none." % entry.number


EXPLAINED = {"program": _program, "fault": _fault_rule, "answer": _answer, "pager": _pager, "tags": _tags, "needed": _needed}
