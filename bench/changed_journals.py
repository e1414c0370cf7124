#!/usr/bin/env python3
"""Whether `verify` gives the verdict that the definitions give: journals of the cases of `run` are changed at
random, in form 1 and in form 2, or their injections or their fuel are, and the verdict of the program is compared
with one that is worked out here from crates/room_verify/specs, of which nothing of the program is used. What a turn
makes of its message is taken from the journals as they were, so it is known as long as each party has done what it
did there; where a change leads beyond that, the verdict is unknown, and all that is asked is that it isn't `lawful`,
unless it is the same that happened, but that messages were fetched in another order.

    bench/changed_journals.py                         1,000 changes of the seed 1
    COUNT=100 SEED=7 bench/changed_journals.py        the first 100 of the seed 7

A text that no journals have has to be refused by `convert` with the same note, and each text as it was has to be
lawful. Told is how often each verdict came, how many were unknown, and what was otherwise, whose files are kept in
a folder; then the status is 1. ROOM_PROGRAM=FILE names the program; without it the proved one is asked. At the end a
text of 256 MiB and one byte is refused as too long."""
import concurrent.futures
import os
import random
import re
import subprocess
import sys
import tempfile
from collections import Counter, deque

TOP = os.path.realpath(os.path.join(os.path.dirname(__file__), ".."))
PROGRAM = os.path.realpath(os.environ.get("ROOM_PROGRAM") or os.path.join(TOP, "crates/room/out/room"))
MOST_BYTES = 268_435_456
UNKNOWN = "unknown"


# ---- journals as they stand in a text

class Entry:
    """An entry: its kind, its stamp, and all that its line and its notes say."""

    def __init__(self, kind, stamp, **fields):
        self.kind, self.stamp, self.fields = kind, stamp, fields

    def __eq__(self, other):
        return (self.kind, self.stamp, self.fields) == (other.kind, other.stamp, other.fields)

    def __getattr__(self, name):
        return self.fields[name]


class Journals:
    """A journal for each controller and one for the environment, what was left, and how the run ended."""

    def __init__(self):
        self.parties, self.left, self.unposted, self.done = [], [], [], None


def named(word):
    sender, sent = word.split("@")
    return sender, int(sent)


def read_journals(text):
    """The journals of a text that the program reads as some."""
    lines = text.decode().split("\n")[:-1]
    second = lines[0] == "room-journal 2"
    posts, party = {}, None
    for line in lines:
        word = line.split(" ", 4)
        if word[0] == "controller":
            party = word[1]
        elif word[0] == "environment":
            party = "env"
        elif len(word) > 3 and word[1] == "post":
            posts[party, int(word[0])] = line.split(" ", 3)[3]
    journals = Journals()
    for line in lines[1:]:
        word = line.split(" ")
        if word[0] in ("controller", "environment"):
            journals.parties.append([])
        elif word[0] == "note":
            journals.parties[-1][-1].fields["notes"].append(line)
        elif word[0] == "start":
            journals.parties[-1].append(Entry("start", None, line=line, notes=[]))
        elif word[0] == "left":
            sender, sent = named(word[3])
            journals.left.append((int(word[1]), word[2] == "pending", sender, sent, " ".join(word[4:])))
        elif word[0] == "unposted":
            journals.unposted.append(int(word[1]))
        elif word[0] in ("done", "spent"):
            journals.done = word[0] == "done"
        elif word[1] == "post":
            message = line.split(" ", 3)[3]
            journals.parties[-1].append(Entry("post", int(word[0]), to=int(word[2]), message=message))
        elif word[1] == "turn":
            sender, sent = named(word[2])
            did = " ".join(word[3:])
            journals.parties[-1].append(Entry("turn", int(word[0]), sender=sender, sent=sent, did=did, notes=[]))
        else:
            add_fetches(journals.parties[-1], word, line, second, posts)
    return journals


def add_fetches(party, word, line, second, posts):
    """The fetches of a line: one with its message in form 1, in form 2 one for each post that is named."""
    if not second:
        sender, sent = named(word[2])
        message = line.split(" ", 3)[3]
        party.append(Entry("fetch", int(word[0]), sender=sender, sent=sent, message=message))
        return
    stamp = None
    for name in word[2:]:
        sender, sent = named(name)
        stamp = int(word[0]) if stamp is None else max(stamp, sent) + 1
        party.append(Entry("fetch", stamp, sender=sender, sent=sent, message=posts[sender, sent]))


def priority(message):
    return int(message.split(" ", 1)[0])


def events(party):
    return [e for e in party if e.kind != "start"]


# ---- injections

def read_lines(text):
    """The lines that say something: their number, their part, and what they say; and those that say `settle`."""
    lines, settles, part = [], [], 1
    for number, line in enumerate(re.sub(r"\n\Z", "", text).split("\n") if text else [], 1):
        line = line.removesuffix("\r")
        words = line.split()
        if words == ["settle"]:
            settles.append((number, part))
            part += 1
        elif line and line[0] != "#":
            lines.append((number, part, " ".join(words)))
    return lines, settles


# ---- the world of a run that is known

class World:
    """All parties and lanes. The runs as they were say what each turn makes of its message."""

    def __init__(self, known, messages, lines, settles):
        self.known = [events(party) for party in known.parties]
        self.environment = len(self.known) - 1
        self.messages, self.lines, self.settles = messages, lines, settles
        self.at = [0] * len(self.known)
        self.clock = [0] * len(self.known)
        self.turns = [0] * self.environment
        self.pending = [[deque() for _ in range(6)] for _ in range(self.environment)]
        self.recalled = [0] * self.environment
        self.lanes = {}

    def party(self, sender):
        return self.environment if sender == "env" else int(sender)

    def name(self, party):
        return "env" if party == self.environment else str(party)

    def following(self, party, kind):
        """Where the party's next entry of a kind stands in its journal as it was."""
        for index in range(self.at[party], len(self.known[party])):
            if self.known[party][index].kind == kind:
                return index
        return None

    def has_outbox(self, c):
        post, turn = self.following(c, "post"), self.following(c, "turn")
        return post is not None and (turn is None or post < turn)

    def pending_count(self, c):
        return sum(len(waiting) for waiting in self.pending[c]) + self.recalled[c]

    def is_quiet(self):
        return not any(self.lanes.values()) and not any(
            self.pending_count(c) or self.has_outbox(c) for c in range(self.environment))

    def has_message(self, c):
        return bool(self.pending_count(c) or self.has_outbox(c)
                    or any(lane for (_, to, _), lane in self.lanes.items() if to == c))

    def last_part(self):
        posted = self.at[self.environment]
        return self.lines[posted - 1][1] if posted else 1

    def made(self, party, entry):
        """What happens where the party does what an entry names: an entry, None where it can't, or UNKNOWN."""
        if party == self.environment:
            return self.made_outside(entry)
        if entry.kind == "fetch":
            return self.made_fetch(party, entry)
        if entry.kind == "turn":
            return self.made_turn(party, entry)
        if entry.kind == "post":
            if not self.has_outbox(party):
                return None
            post = self.known[party][self.following(party, "post")]
            return Entry("post", self.clock[party] + 1, to=post.to, message=post.message)
        return None

    def made_fetch(self, c, entry):
        lane = self.lanes.get((self.party(entry.sender), c, priority(entry.message)))
        if not lane:
            return None
        sent, message = lane[0]
        return Entry("fetch", max(self.clock[c], sent) + 1, sender=entry.sender, sent=sent, message=message)

    def made_turn(self, c, entry):
        if self.has_outbox(c) or not self.pending_count(c):
            return None
        if entry.stamp != self.clock[c] + 1:
            return None
        following = self.following(c, "turn")
        turn = None if following is None else self.known[c][following]
        if self.recalled[c]:
            first = None
        else:
            first = next(waiting[0] for waiting in self.pending[c] if waiting)
            if (entry.sender, entry.sent) != first[:2]:
                return None
        if turn is None or (turn.sender, turn.sent) != (entry.sender, entry.sent) or first is None and following != self.at[c]:
            return UNKNOWN
        return Entry("turn", self.clock[c] + 1, sender=turn.sender, sent=turn.sent, did=turn.did, notes=turn.notes)

    def made_outside(self, entry):
        posted = self.at[self.environment]
        if entry.kind != "post" or posted >= len(self.lines):
            return None
        before = self.lines[posted - 1][1] if posted else 1
        clock = self.clock[self.environment]
        if self.lines[posted][1] != before:
            if not self.is_quiet():
                return None
            clock = max(self.clock)
        if self.lines[posted][2] not in self.messages:
            return UNKNOWN
        to, message = self.messages[self.lines[posted][2]]
        return Entry("post", clock + 1, to=to, message=message)

    def happen(self, party, entry):
        self.clock[party] = entry.stamp
        self.at[party] += 1
        if entry.kind == "post":
            self.lanes.setdefault((party, entry.to, priority(entry.message)), deque()).append((entry.stamp, entry.message))
        elif entry.kind == "fetch":
            self.lanes[self.party(entry.sender), party, priority(entry.message)].popleft()
            self.pending[party][priority(entry.message)].append((entry.sender, entry.sent, entry.message))
        else:
            self.take(party, entry)

    def take(self, c, turn):
        self.turns[c] += 1
        for waiting in self.pending[c]:
            if waiting and waiting[0][:2] == (turn.sender, turn.sent):
                waiting.popleft()
                break
        else:
            # It had come back before.
            self.recalled[c] -= 1
        for note in turn.notes:
            if note.startswith("note recall "):
                self.recalled[c] += int(note.split(" ")[2])

    def left(self):
        """What is left, in order; UNKNOWN where messages came back."""
        if any(self.recalled):
            return UNKNOWN
        left = []
        for c in range(self.environment):
            for waiting in self.pending[c]:
                left += [(c, True, *message) for message in waiting]
            for prio in range(6):
                for sender in [self.environment, *range(self.environment)]:
                    left += [(c, False, self.name(sender), *m) for m in self.lanes.get((sender, c, prio), ())]
        return left

    def has_ended(self, journals, fuel):
        if any(self.has_outbox(c) for c in range(self.environment)):
            return False
        posted = self.at[self.environment]
        if journals.done:
            return self.is_quiet() and posted == len(self.lines) and not journals.left and not journals.unposted
        spent = all(self.turns[c] >= fuel for c in range(self.environment) if self.has_message(c))
        part = self.last_part()
        rest = [(number, p) for number, p, _ in self.lines] + self.settles
        ending = [number for number, p in self.settles if p == part]
        unposted = sorted(number for number, _ in rest if ending and number >= ending[0])
        return (not self.is_quiet() and spent and all(p > part for _, p, _ in self.lines[posted:])
                and journals.unposted == unposted)


# ---- the verdict

def rises(party):
    stamps = [e.stamp for e in events(party)]
    return all(a < b for a, b in zip(stamps, stamps[1:]))


def has_starts(party, starts):
    front = party[:len(starts)]
    return front == starts and all(e.kind != "start" for e in party[len(starts):])


def verdict_on(journals, known, messages, lines, settles, fuel):
    """The verdict on journals, by what is known of the run as it was; UNKNOWN where it can't be told."""
    environment = len(journals.parties) - 1
    name = lambda party: "env" if party == environment else str(party)
    for party, entries in enumerate(journals.parties):
        if not rises(entries):
            return f"order {name(party)}"
    for c in range(environment):
        if not has_starts(journals.parties[c], [e for e in known.parties[c] if e.kind == "start"]):
            return f"start {c}"
    world = World(known, messages, lines, settles)
    merge = sorted((e.stamp, party, e) for party, entries in enumerate(journals.parties) for e in events(entries))
    for stamp, party, entry in sorted(merge, key=lambda placed: placed[:2]):
        made = world.made(party, entry)
        if made is not UNKNOWN and (made is None or made != entry):
            return f"entry {name(party)} {stamp}"
        follows = world.known[party][world.at[party]:][:1]
        if made is UNKNOWN or follows != [entry]:
            return UNKNOWN
        world.happen(party, entry)
    return verdict_at(world, journals, known, fuel)


def verdict_at(world, journals, known, fuel):
    left = world.left()
    if left is UNKNOWN:
        is_whole = all(at == len(party) for at, party in zip(world.at, world.known))
        left = known.left if is_whole else UNKNOWN
    if left is UNKNOWN:
        return UNKNOWN if journals.left else "left"
    if left != journals.left:
        return "left"
    for c, turns in enumerate(world.turns):
        if turns > fuel:
            return f"fuel {c}"
    return "lawful" if world.has_ended(journals, fuel) else "ended"


# ---- the program

def answer(words, folder):
    done = subprocess.run([PROGRAM, *words], cwd=folder, capture_output=True, timeout=300)
    return done.returncode, done.stdout.decode(), done.stderr.decode()


def told_verdict(status, out, notes):
    """The verdict that the program tells; None where it tells something else."""
    if (status, out, notes) == (0, "lawful\n", ""):
        return "lawful"
    found = re.fullmatch(r"room: unlawful: (.*)\n", notes)
    return found[1] if status == 8 and not out and found else None


# ---- the journals that are changed

class Case:
    """A run: its folder with a model, its injections, its journals in a form, and its fuel."""

    def __init__(self, folder, model, inject, text, fuel):
        self.model = os.path.join(folder, model)
        with open(os.path.join(folder, inject), newline="") as file:
            self.inject = file.read()
        self.text, self.fuel = text, fuel
        self.known = read_journals(text)
        self.lines, self.settles = read_lines(self.inject)
        posts = events(self.known.parties[-1])
        self.messages = {line[2]: (post.to, post.message) for line, post in zip(self.lines, posts)}


def first_form(text):
    """The same journals in form 1."""
    journals, lines = read_journals(text), text.decode().split("\n")
    entries = iter([e for party in journals.parties for e in party if e.kind == "fetch"])
    out = ["room-journal 1"]
    for line in lines[1:]:
        word = line.split(" ")
        if word[1:2] == ["fetch"]:
            for name in word[2:]:
                e = next(entries)
                out.append(f"{e.stamp} fetch {name} {e.message}")
        else:
            out.append(line)
    return "\n".join(out).encode()


def known_cases():
    cases = []
    for subject in sorted(os.listdir(os.path.join(TOP, "cases"))):
        folder = os.path.join(TOP, "cases", subject)
        if subject in ("views", "launcher") or not os.path.isdir(folder):
            continue
        for name in sorted(os.listdir(folder)):
            case = os.path.join(folder, name)
            with open(os.path.join(case, "words")) as file:
                words = file.read().split("\n")[:-1]
            if words[:1] != ["run"] or not os.path.isfile(os.path.join(case, "out")):
                continue
            with open(os.path.join(case, "out"), "rb") as file:
                text = file.read()
            if not 0 < len(text) < 30_000:
                continue
            fuel = int(words[4]) if words[3:4] == ["--fuel"] else 10_000
            with open(os.path.join(case, words[2]), newline="") as file:
                if re.search(r"^advance ", file.read(), re.M):
                    continue
            cases += [Case(case, words[1], words[2], text, fuel), Case(case, words[1], words[2], first_form(text), fuel)]
    return cases


# ---- the changes, each of lines of a text

def some_line(chance, lines, fits=lambda line: True):
    """The place of a line that is no head of the text."""
    places = [at for at in range(1, len(lines)) if fits(lines[at])]
    return chance.choice(places) if places else None


def drop(chance, lines):
    del lines[some_line(chance, lines)]


def double(chance, lines):
    at = some_line(chance, lines)
    lines.insert(at, lines[at])


def exchange(chance, lines):
    at = some_line(chance, lines[:-1])
    if at is not None:
        lines[at], lines[at + 1] = lines[at + 1], lines[at]


def move(chance, lines):
    line = lines.pop(some_line(chance, lines))
    lines.insert(chance.randrange(1, len(lines) + 1), line)


def cut(chance, lines):
    del lines[some_line(chance, lines):]


def cut_end(chance, lines):
    """Some last lines of a party are missing."""
    heads = [at for at, line in enumerate(lines) if line.split(" ")[0] in ("environment", "done", "spent", "controller")]
    at = chance.choice(heads)
    count = chance.randint(1, 4)
    del lines[max(1, at - count):at]


def number(chance, lines):
    at = some_line(chance, lines, lambda line: re.search(r"\d", line))
    if at is not None:
        found = chance.choice(list(re.finditer(r"\d+", lines[at])))
        value = int(found[0]) + chance.choice((-1, 1, 1, 2, 10))
        lines[at] = lines[at][:found.start()] + str(max(0, value)) + lines[at][found.end():]


def outcome(chance, lines):
    at = some_line(chance, lines, lambda line: re.search(r" (un)?handled | deferred ", line))
    if at is not None:
        word = chance.choice(("handled", "unhandled", "deferred"))
        lines[at] = re.sub(r" (handled|unhandled|deferred) ", f" {word} ", lines[at])


def state(chance, lines):
    at = some_line(chance, lines, lambda line: re.search(r" (start|turn|handled) ", " " + line))
    if at is not None:
        states = [line.split(" ")[-1] for line in lines if re.search(r"^start | (un)?handled ", line)]
        lines[at] = " ".join(lines[at].split(" ")[:-1] + [chance.choice(states)])


def word(chance, lines):
    """A word for another one that stands at the same place of another line."""
    at = some_line(chance, lines, lambda line: len(line.split(" ")) > 3)
    if at is not None:
        words = lines[at].split(" ")
        place = chance.randrange(2, len(words))
        others = [line.split(" ")[place] for line in lines if len(line.split(" ")) > place]
        words[place] = chance.choice(others)
        lines[at] = " ".join(words)


def contents(kind):
    """What two entries of a kind say, exchanged; their stamps stay."""
    def change(chance, lines):
        places = [at for at, line in enumerate(lines) if line.split(" ")[1:2] == [kind]]
        if len(places) < 2:
            return
        one = chance.randrange(len(places) - 1)
        a, b = places[one], places[chance.choice((one + 1, chance.randrange(len(places))))]
        (s, x), (t, y) = lines[a].split(" ", 1), lines[b].split(" ", 1)
        lines[a], lines[b] = f"{s} {y}", f"{t} {x}"
    return change


def later(chance, lines):
    """All that a controller did from a line on is stamped one later."""
    at = some_line(chance, lines, lambda line: line[0].isdigit())
    if at is None:
        return
    party = next(line.split(" ") for line in reversed(lines[:at]) if line.split(" ")[0] in ("controller", "environment"))
    name, first = "env" if party[0] == "environment" else party[1], int(lines[at].split(" ")[0])
    end = next(i for i in range(at, len(lines)) if not lines[i][0].isdigit() and not lines[i].startswith("note"))
    for i in range(at, end):
        if lines[i][0].isdigit():
            stamp, rest = lines[i].split(" ", 1)
            lines[i] = f"{int(stamp) + 1} {rest}"
    for i, line in enumerate(lines):
        lines[i] = re.sub(rf"(?<= ){name}@(\d+)", lambda m: f"{name}@{int(m[1]) + (int(m[1]) >= first)}", line)


def end(chance, lines):
    lines[-1] = "spent" if lines[-1] == "done" else "done"


def unposted(chance, lines):
    lines.insert(len(lines) - 1, f"unposted {chance.randint(1, 5)}")


def left(chance, lines):
    posts = [line.split(" ", 3) for line in lines if line.split(" ")[1:2] == ["post"]]
    if posts:
        post = chance.choice(posts)
        lines.insert(len(lines) - 1, f"left {post[2]} {chance.choice(('pending', 'lane'))} 0@{post[0]} {post[3]}")


def note(chance, lines):
    at = some_line(chance, lines, lambda line: line.startswith("start") or " turn " in line)
    if at is not None:
        lines.insert(at + 1, chance.choice(("note zero", "note recall 1", "note nomessage")))


CHANGES = [drop, double, exchange, move, cut, cut_end, number, number, outcome, state, word, word, contents("fetch"),
           contents("turn"), contents("post"), later, end, unposted, left, note]
OF_INJECTIONS = [drop, double, exchange, move]


def changed(chance, case):
    """Journals, injections and a fuel, one of which is another one; and the name of the change."""
    while True:
        text, inject, fuel, change = changed_once(chance, case)
        if (text, inject, fuel) != (case.text, case.inject, case.fuel):
            return text, inject, fuel, change


def changed_once(chance, case):
    text, inject, fuel = case.text, case.inject, case.fuel
    kind = chance.random()
    if kind < 0.05:
        turns = [sum(e.kind == "turn" for e in party) for party in case.known.parties]
        return text, inject, max(1, max(turns) + chance.choice((-2, -1, 0, 1))), "fuel"
    if kind < 0.15 and inject:
        # The first line stands where a title stands in journals.
        lines = ["", *re.sub(r"\n\Z", "", inject).split("\n")]
        change = chance.choice(OF_INJECTIONS)
        if len(lines) > 2:
            change(chance, lines)
        return text, "".join(line + "\n" for line in lines[1:]), fuel, "injections"
    lines = text.decode().split("\n")[:-1]
    change = chance.choice(CHANGES)
    change(chance, lines)
    return "".join(line + "\n" for line in lines).encode(), inject, fuel, change.__name__


def has_too_much(inject):
    """Whether injections are refused since lines were doubled."""
    return len(inject.encode()) > 1_048_576 or inject.count("\n") > 10_000


def what_happened(text):
    """The lines, whatever the order in which messages were fetched: those of two lanes may come in either order."""
    return sorted(re.sub(r"^\d+ (?=fetch )", "", line) for line in text.decode().split("\n"))


def judge(case, text, inject, fuel, folder):
    """What the program says of a changed text, and what is otherwise than it should be."""
    for name, data in (("inject.txt", inject.encode()), ("journals.txt", text)):
        with open(os.path.join(folder, name), "wb") as file:
            file.write(data)
    status, out, notes = answer(["verify", case.model, "inject.txt", "journals.txt", "--fuel", str(fuel)], folder)
    if status == 9:
        other = answer(["convert", case.model, "journals.txt"], folder)
        return "no journals", None if other == (status, out, notes) else f"{notes!r}, and convert {other!r}"
    if status == 3 and has_too_much(inject):
        return "refused", None
    told = told_verdict(status, out, notes)
    if told is None:
        return "none", f"{status} {out!r} {notes!r}"
    lines, settles = read_lines(inject)
    right = verdict_on(read_journals(text), case.known, case.messages, lines, settles, fuel)
    if right is UNKNOWN:
        is_wrong = told == "lawful" and what_happened(text) != what_happened(case.text)
        return "unknown", "lawful, of journals that were changed" if is_wrong else None
    return told.split(" ")[0], None if told == right else f"{told}, and not {right}"


def try_change(number, seed, cases, kept):
    chance = random.Random(f"{seed} {number}")
    case = chance.choice(cases)
    text, inject, fuel, change = changed(chance, case)
    folder = tempfile.mkdtemp(dir=kept, prefix=f"{number}.")
    verdict, wrong = judge(case, text, inject, fuel, folder)
    if wrong is None:
        for name in os.listdir(folder):
            os.remove(os.path.join(folder, name))
        os.rmdir(folder)
    else:
        wrong = f"{number}, {change}, {os.path.relpath(case.model, TOP)}: {wrong}; {folder}"
    return verdict, wrong


def try_unchanged(case, folder):
    verdict, wrong = judge(case, case.text, case.inject, case.fuel, folder)
    if wrong is None and verdict != "lawful":
        wrong = verdict
    return wrong and f"{os.path.relpath(case.model, TOP)} as it was: {wrong}"


def try_too_long(case, folder):
    name = os.path.join(folder, "long.txt")
    with open(name, "wb") as file:
        file.truncate(MOST_BYTES + 1)
    with open(os.path.join(folder, "inject.txt"), "w"):
        pass
    told = answer(["verify", case.model, "inject.txt", "long.txt"], folder)
    os.remove(name)
    return None if told == (9, "", "room: journals refused: too long\n") else f"a byte too many: {told!r}"


def main():
    count, seed = int(os.environ.get("COUNT", "1000")), os.environ.get("SEED", "1")
    cases = known_cases()
    verdicts, wrong = Counter(), []
    kept = tempfile.mkdtemp()
    with tempfile.TemporaryDirectory() as folder:
        wrong += filter(None, (try_unchanged(case, folder) for case in cases))
        wrong += filter(None, [try_too_long(cases[0], folder)])
    with concurrent.futures.ThreadPoolExecutor(os.cpu_count()) as pool:
        for verdict, told in pool.map(lambda number: try_change(number, seed, cases, kept), range(count)):
            verdicts[verdict] += 1
            wrong += [told] if told else []
    print(f"{len(cases)} journals as they were, {count} changed: "
          + ", ".join(f"{verdict} {times}" for verdict, times in sorted(verdicts.items())))
    for told in wrong:
        print(told)
    print(f"{len(wrong)} otherwise")
    if not os.listdir(kept):
        os.rmdir(kept)
    return 1 if wrong else 0


if __name__ == "__main__":
    sys.exit(main())
