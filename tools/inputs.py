"""The input, read as program/FORMATS.md says, with its first fault: written from that page, not from the program."""
import collections
import json
import math
import re

from core import Core

LONGEST = 1_048_576
DEEPEST = 127
NODES = 64
SCRIPTS = 16
LOCKS = 64
SEATS = 16
EVENTS = 10_000
WIDTH = 2**64

FAULTS = {
    10: "not json",
    11: "bad key",
    12: "number out of range",
    13: "bad graph",
    14: "unknown word",
    15: "unknown version",
    17: "input too long",
    18: "wrong type",
}

KINDS = ("wound-wait", "wait-die")
# The versions, and how many ports a node has in each.
PORTS = {1: 4, 2: 8}

# The members that each word asks for, by what they are. `by` and the lists are read by the functions of these names.
TRANSACTIONS = {
    "get": ["by", "nodes"],
    "add": ["by", "pairs"],
    "move": ["node", "node", "amount"],
    "link": ["node", "port", "target"],
    "sum": ["node", "port", "length"],
    "reverse": ["node", "port", "length"],
    "peek": ["node"],
}
INTERRUPTIBLE = {word: members for word, members in TRANSACTIONS.items() if word != "peek"}
ACTS = {**TRANSACTIONS, "cancel": ["script"], "interruptible": ["transaction"]}
ONE_SEAT = ("begin", "clear", "commit", "end")
ONE_LOCK = ("fast", "fast-give", "guard", "join", "take", "ask", "give", "die", "unguard", "heed", "leave")
TWO_SEATS = ("sign", "cancel")
WORDS = {
    **{it: ["seat"] for it in ONE_SEAT},
    **{it: ["seat", "lock"] for it in ONE_LOCK},
    **{it: ["seat", "seat"] for it in TWO_SEATS},
}


class Fault(Exception):
    """The input is refused."""

    def __init__(self, number, spot, why):
        super().__init__(f"refused {number} {FAULTS[number]}", f"{spot}: {why}" if spot else why)


# ---- JSON, as program/FORMATS.md says it is read


class Number:
    """A number as it is written, and its value if it is a whole one that fits 64 bits without a sign."""

    def __init__(self, text):
        if math.isinf(float(text)):
            raise ValueError(f"the number {shortened(text)} has no reading")
        self.text = text
        self.value = None
        if re.fullmatch("[0-9]{1,20}", text) and int(text) < WIDTH:
            self.value = int(text)


def shortened(text):
    return text if len(text) <= 40 else f"{text[:40]}.."


def no_constant(text):
    raise ValueError(f"{text} is no JSON")


def depth_of(text):
    """How deep the arrays and objects of this JSON text are nested."""
    deepest = depth = 0
    for it in re.sub(r'"(?:[^"\\]|\\.)*"', "", text, flags=re.DOTALL):
        depth += (it in "[{") - (it in "]}")
        deepest = max(deepest, depth)
    return deepest


def parsed(data):
    if len(data) > LONGEST:
        raise Fault(17, "", f"there are more than {LONGEST} bytes")
    try:
        text = data.decode("utf-8")
        if depth_of(text) > DEEPEST:
            raise ValueError(f"arrays and objects are nested more than {DEEPEST} deep")
        whole = json.loads(text, parse_int=Number, parse_float=Number, parse_constant=no_constant)
        # Also of values that aren't kept, since their key is written twice.
        for it in re.findall(r'"(?:[^"\\]|\\.)*"', text):
            json.loads(it).encode("utf-8")
    except UnicodeEncodeError:
        raise Fault(10, "", "an escape names half of a surrogate pair") from None
    except UnicodeDecodeError as error:
        raise Fault(10, "", f"byte {error.start} isn't UTF-8") from None
    except json.JSONDecodeError as error:
        raise Fault(10, "", f"line {error.lineno}, column {error.colno}: {error.msg}") from None
    except ValueError as error:
        raise Fault(10, "", str(error)) from None
    return whole


# ---- the parts of an input: each has its type, its count or its words, and its range, in this order


TYPES = {dict: "an object", list: "an array", str: "text", bool: "true or false", Number: "a number"}


def shown(value):
    if isinstance(value, Number):
        return shortened(value.text)
    return shortened(json.dumps(value, default=lambda it: it.text))


def typed(value, kind, spot):
    if type(value) is not kind:
        raise Fault(18, spot, f"is {TYPES.get(type(value), 'null')}, and {TYPES[kind]} is due")
    return value


def keys(value, due, spot):
    other = next((f", but {shown(it)}" for it in value if it not in due), "")
    for key in due:
        if key not in value:
            raise Fault(11, spot, f'has no key "{key}"{other}')
    for key in value:
        if key not in due:
            raise Fault(11, spot, f"has the key {shown(key)}, which isn't due there")


def has(value):
    return f"has {len(value)} member{'s' * (len(value) != 1)}"


def counted(value, least, most, spot):
    typed(value, list, spot)
    if not least <= len(value) <= most:
        due = least if least == most else f"{least} to {most}"
        raise Fault(12, spot, f"{has(value)}, and {due} are due")
    return value


def word(value, words, spot):
    if typed(value, str, spot) not in words:
        raise Fault(14, spot, f"{shown(value)} is none of {', '.join(words)}")
    return value


def ranged(value, least, most, spot):
    number = typed(value, Number, spot).value
    if number is None or not least <= number <= most:
        raise Fault(12, spot, f"{shown(value)} isn't a number from {least} to {most}")
    return number


def numbered(value, count, what, spot):
    """A node, a script, a seat or a lock, of so many."""
    number = typed(value, Number, spot).value
    if number is None or number >= count:
        raise Fault(12, spot, f"{shown(value)} names no {what}: {there_are(count, what)}")
    return number


def there_are(count, what):
    return f"there is {what} 0 alone" if count == 1 else f"there are the {what}s 0 to {count - 1}"


# ---- scripts


# How many nodes there are, how many ports each of them has, and how many scripts there are.
Counts = collections.namedtuple("Counts", "nodes ports scripts")


def node_of(value, count, ports, spot):
    typed(value, dict, spot)
    keys(value, ["value", "ports"], spot)
    ranged(value["value"], 0, WIDTH - 1, f"{spot}.value")
    for at, port in enumerate(counted(value["ports"], ports, ports, f"{spot}.ports")):
        if port is not None:
            named = ranged(port, 0, NODES - 1, f"{spot}.ports[{at}]")
            if named >= count:
                are = "there is 1 node" if count == 1 else f"there are {count} nodes"
                raise Fault(13, f"{spot}.ports[{at}]", f"names node {named}, and {are}")


def pair_of(value, count, spot):
    if len(typed(value, list, spot)) != 2:
        raise Fault(14, spot, f"{has(value)}, and a pair has 2")
    numbered(value[0], count, "node", f"{spot}[0]")
    ranged(value[1], 0, WIDTH - 1, f"{spot}[1]")


def member_of(value, what, counts, spot):
    """A transaction's member."""
    if what == "by":
        word(value, ("list", "order"), spot)
    elif what == "nodes":
        for at, node in enumerate(counted(value, 1, NODES, spot)):
            numbered(node, counts.nodes, "node", f"{spot}[{at}]")
    elif what == "pairs":
        for at, pair in enumerate(counted(value, 1, NODES, spot)):
            pair_of(pair, counts.nodes, f"{spot}[{at}]")
    elif what == "port":
        ranged(value, 0, counts.ports - 1, spot)
    elif what == "length":
        ranged(value, 1, NODES, spot)
    elif what == "amount":
        ranged(value, 0, WIDTH - 1, spot)
    elif what == "node" or value is not None:
        numbered(value, counts.nodes, "node", spot)


def worded(value, words, what, spot):
    """An act's or an event's own faults. Gives its word, and what its members are."""
    if not typed(value, list, spot):
        raise Fault(14, spot, f"is empty, and {what} begins with its word")
    name = word(value[0], words, f"{spot}[0]")
    if len(value) != len(words[name]) + 1:
        due = " ".join([name, *words[name]])
        raise Fault(14, spot, f"{has(value)}, and {len(words[name]) + 1} are due: {due}")
    return name, words[name]


def transaction_of(value, words, counts, spot):
    _, members = worded(value, words, "a transaction", spot)
    for number, (member, what) in enumerate(zip(value[1:], members), 1):
        member_of(member, what, counts, f"{spot}[{number}]")


def act_of(value, counts, spot):
    """An act of a script."""
    name, _ = worded(value, ACTS, "an act", spot)
    if name == "cancel":
        numbered(value[1], counts.scripts, "script", f"{spot}[1]")
    elif name == "interruptible":
        transaction_of(value[1], INTERRUPTIBLE, counts, f"{spot}[1]")
    else:
        transaction_of(value, TRANSACTIONS, counts, spot)


def read_scripts(whole, ports):
    """Looks for a fault in scripts whose nodes have so many ports."""
    keys(whole, ["version", "kind", "history", "nodes", "scripts"], "the input")
    word(whole["kind"], KINDS, "kind")
    typed(whole["history"], bool, "history")
    nodes = counted(whole["nodes"], 1, NODES, "nodes")
    for at, node in enumerate(nodes):
        node_of(node, len(nodes), ports, f"nodes[{at}]")
    scripts = counted(whole["scripts"], 1, SCRIPTS, "scripts")
    counts = Counts(len(nodes), ports, len(scripts))
    for script, acts in enumerate(scripts):
        for at, act in enumerate(counted(acts, 0, EVENTS, f"scripts[{script}]")):
            act_of(act, counts, f"scripts[{script}][{at}]")


# ---- schedules


def read_schedule(whole):
    """The core at its start, and the events: each its word and its numbers."""
    keys(whole, ["version", "kind", "locks", "seats", "events"], "the input")
    kind = word(whole["kind"], KINDS, "kind")
    counts = {
        "lock": ranged(whole["locks"], 1, LOCKS, "locks"),
        "seat": ranged(whole["seats"], 1, SEATS, "seats"),
    }
    events = []
    for at, event in enumerate(counted(whole["events"], 0, EVENTS, "events")):
        spot = f"events[{at}]"
        name, members = worded(event, WORDS, "an event", spot)
        spots = [f"{spot}[{number}]" for number in range(1, len(event))]
        named = [numbered(it, counts[what], what, where) for it, what, where in zip(event[1:], members, spots)]
        events.append((name, *named))
    return Core(kind, counts["lock"], counts["seat"]), events


# ---- the whole


def read(data):
    """The core and the events of a schedule, or None of scripts."""
    whole = parsed(data)
    typed(whole, dict, "the input")
    if "version" not in whole:
        raise Fault(11, "the input", 'has no key "version"')
    version = typed(whole["version"], Number, "version")
    if version.value not in PORTS:
        raise Fault(15, "version", f"is {shown(version)}, and only {' and '.join(map(str, PORTS))} are known")
    return read_schedule(whole) if "events" in whole else read_scripts(whole, PORTS[version.value])
