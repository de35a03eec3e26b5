"""Random work on an index by the programs `ledger` and `btidx run`, and which entries may be there behind a crash of it: those
after a first part of what was done, with all that was acknowledged. For tools/power-cut and tools/soak."""
import re
import subprocess

LEAF = re.compile(r"\d+ leaf (live|halfdead|deleted) ")
RECORD = re.compile(r"job (\d+) worker \d+ from (\d+) to (\d+) (.*)")
NOT_BEGUN = ("refused 11",)


def text_of(entry):
    key, block, offset = entry
    return f"{key.hex() or '-'} ({block},{offset})"


def entry_of(text):
    key, row = text.split(" ")
    block, offset = row[1:-1].split(",")
    return bytes.fromhex("" if key == "-" else key), int(block), int(offset)


def some_entry(dice, rows):
    """An entry with a key of any length. Rows come from so many, so that a row has several entries now and then."""
    length = dice.choice((0, 1, 2, 2, 3, 4, 8, 16, 16, 16, 32, 64))
    return dice.randbytes(length), dice.randrange(rows), dice.randrange(1, 4)


def said_by(words, **more):
    return subprocess.run(words, stdout=subprocess.PIPE, stderr=subprocess.STDOUT, text=True, **more)


class Damaged(Exception):
    """A file is damaged, or its entries aren't what they may be."""


def entries_of(programs, path, is_parallel=True, is_dumped=True):
    """The entries of an index, as `ledger` lists them, behind a check that has found no damage; a dump prints the same."""
    words = [programs.btidx, "check", path, "--parents"] + ([] if is_parallel else ["--one-thread"])
    checked = said_by(words)
    found = re.match(r"ok levels=\d+ pages=\d+ entries=(\d+) ", checked.stdout)
    if checked.returncode != 0 or found is None:
        raise Damaged(f"check: {checked.stdout.strip()}")
    dumped = dumped_by(programs.btidx, path) if is_dumped else None
    listed = said_by([programs.ledger, path], input="list * *\n").stdout.splitlines()
    if listed[-1:] != [f"done {found[1]}"] or len(listed) != int(found[1]) + 1:
        raise Damaged(f"check counts {found[1]} entries, ledger says {listed[-1:]}")
    entries = [entry_of(line.removeprefix("entry ")) for line in listed[:-1]]
    if entries != sorted(set(entries)) or dumped not in (None, entries):
        raise Damaged(f"the {len(entries)} entries that ledger lists are out of order, or not those of a dump")
    return set(entries)


def dumped_by(btidx, path):
    """The entries on the live leaves that a dump prints, in their order."""
    dumped = said_by([btidx, "dump", path])
    if dumped.returncode != 0:
        raise Damaged(f"dump: {dumped.stdout.strip()[-200:]}")
    entries, is_leaf = [], False
    for line in dumped.stdout.splitlines():
        if line.startswith("  "):
            if is_leaf:
                entries.append(entry_of(line[2:]))
        else:
            kind = LEAF.match(line)
            is_leaf = kind is not None and kind[1] == "live"
    return sorted(entries)


class Lines:
    """Random lines for `ledger`, what each is to be answered, and the entries after each first part of them."""

    def __init__(self, dice, entries, rows):
        self.dice, self.rows, self.commits = dice, rows, 0
        self.restart(entries)

    def restart(self, entries):
        """The entries are these, and no line was sent."""
        # The entries behind the acknowledged lines, behind the answered ones, and behind all, as far as can be told.
        self.firm, self.now, self.plan = set(entries), set(entries), set(entries)
        # What each answered line has added and removed; so many of them are acknowledged.
        self.effects, self.acknowledged = [], 0

    def line(self):
        """One more line, and its effect: what it adds, and what it removes."""
        line, adds, removes = self.random_line()
        self.plan -= removes
        self.plan |= adds
        return line, (adds, removes)

    def random_line(self):
        dice, die = self.dice, self.dice.random()
        if die < 0.14:
            return ("commit" if die < 0.12 else "checkpoint"), set(), set()
        if die < 0.17:
            return "vacuum", set(), set()
        if die < 0.22:
            low = dice.randrange(1 << 16)
            return f"list {low:04x} {min(low + dice.randrange(3000), 0xFFFF):04x}", set(), set()
        if die < 0.26 and self.plan:
            return self.delete_line()
        entry = some_entry(dice, self.rows)
        if dice.random() < 0.02 and self.plan:
            entry = dice.choice(sorted(self.plan))
        return f"insert {text_of(entry)}", {entry}, set()

    def delete_line(self):
        """A delete of a few rows, or of all rows of entries that stand side by side, so that leaves become empty."""
        few = sorted(self.plan)
        if self.dice.random() < 0.4:
            at = self.dice.randrange(len(few))
            chosen = few[at : at + self.dice.randrange(20, 400)]
        else:
            chosen = self.dice.sample(few, min(len(few), self.dice.randrange(1, 6)))
        rows = {entry[1:] for entry in chosen}
        words = " ".join(f"({block},{offset})" for block, offset in sorted(rows))
        return f"delete {words}", set(), {entry for entry in few if entry[1:] in rows}

    def answered(self, line, effect, answer):
        """A line was answered so: notes what was done, after it was seen that this is a right answer."""
        name, last = line.split(" ")[0], answer[-1]
        adds, removes = effect[0], effect[1] & self.now
        if name == "insert":
            right = last == "refused 5 Exists" if adds <= self.now else re.fullmatch(r"added \d+|refused 8 IndexFull", last)
            if last == "refused 8 IndexFull":
                self.plan -= adds
                adds = set()
        elif name == "delete":
            right = last == f"deleted {len(removes)}"
        elif name == "list":
            low, high = (bytes.fromhex(word) for word in line.split(" ")[1:])
            listed = [f"entry {text_of(entry)}" for entry in sorted(entry for entry in self.now if low <= entry[0] < high)]
            right = answer == listed + [f"done {len(listed)}"]
        elif name == "vacuum":
            right = re.fullmatch(rf"finished pages=\d+ tuples={len(self.now)} removed=0 new=\d+ deleted=\d+ free=\d+", last)
        else:
            right = re.fullmatch(rf"{'committed' if name == 'commit' else 'checkpointed'} \d+", last)
        if not right:
            raise Damaged(f"{line[:200]!r} was answered {answer[-3:]}")
        self.effects.append((adds, removes))
        self.now -= removes
        self.now |= adds
        if name in ("commit", "checkpoint"):
            self.commits += 1
            self.acknowledge()

    def acknowledge(self):
        self.acknowledged, self.firm = len(self.effects), set(self.now)


def is_first_part(entries, firm, effects):
    """Whether these entries are those behind some first part of the effects. A delete is several actions, one a leaf, so that a
    crash may leave some of what it removes."""
    now = set(firm)
    for adds, removes in effects:
        if now - removes <= entries <= now:
            return True
        now = now - removes | adds
    return entries == now


def jobs_of(dice, count, entries):
    """Random jobs for `btidx run`: lines, of each insert its entry, of each bulk delete its rows. No entry is inserted twice, and
    none that is there."""
    taken, known, lines, inserts, bulks = set(entries), sorted(entries), [], {}, {}
    for job in range(count):
        die = dice.random()
        if die < 0.10:
            lines.append("commit" if die < 0.09 else "checkpoint")
        elif die < 0.12:
            lines.append("cleanup")
        elif die < 0.15:
            low, high = sorted((dice.randbytes(2), dice.randbytes(2)))
            lines.append(f"scan {low.hex()} {high.hex()} 100")
        elif die < 0.18 and known:
            at = dice.randrange(len(known))
            rows = {entry[1:] for entry in known[at : at + dice.choice((1, 3, 60))]}
            bulks[job] = rows
            lines.append("bulk " + " ".join(f"({block},{offset})" for block, offset in sorted(rows)))
        else:
            entry = some_entry(dice, 1 << 16)
            while entry in taken:
                entry = some_entry(dice, 1 << 16)
            taken.add(entry)
            known.append(entry)
            inserts[job] = entry
            lines.append(f"insert {text_of(entry)}")
    return lines, inserts, bulks


class Run:
    """What a run of jobs has told: of each entry the action that added it (0 if it was there before), and of each bulk delete
    how many actions there were as it began and as it ended."""

    def __init__(self, printed, entries, inserts, bulks):
        self.added, self.bulks, self.commits, jobs = {entry: 0 for entry in entries}, [], 0, 0
        for line in printed.splitlines():
            found = RECORD.fullmatch(line)
            if found is None:
                continue
            jobs += 1
            job, began, ended, end = int(found[1]), int(found[2]), int(found[3]), found[4]
            self.commits += end.startswith(("committed", "checkpointed"))
            if end.startswith("added"):
                self.added[inserts[job]] = int(end.split(" ")[1])
            elif job in bulks and not end.startswith(NOT_BEGUN):
                self.bulks.append((bulks[job], began, ended, end.startswith("finished")))
        self.jobs, self.actions = jobs, int(re.search(r"^checkpointed (\d+)\n\Z", printed, re.M)[1])
        # When an entry may be gone first, and when it must be: by the bulk deletes that name its row.
        self.gone = {}
        for rows, began, ended, is_whole in self.bulks:
            for entry, action in self.added.items():
                if entry[1:] in rows and action < ended:
                    first, last = self.gone.get(entry, (ended, self.actions + 1))
                    last = min(last, ended) if is_whole and action <= began else last
                    self.gone[entry] = min(first, max(action, began) + 1), last

    def least_part(self, entries, at_least):
        """The least number of actions, from there on, after which the entries may be these; None if there is none. Each that is
        there was added and isn't gone for sure, and each that was added is there, or may be gone."""
        if not entries <= self.added.keys():
            return None
        least = max([at_least] + [self.added[entry] for entry in entries])
        most = min([self.actions] + [self.gone[entry][1] - 1 for entry in entries & self.gone.keys()])
        for action, entry in sorted((self.added[entry], entry) for entry in self.added.keys() - entries):
            if action <= least:
                least = max(least, self.gone[entry][0] if entry in self.gone else self.actions + 1)
        return least if least <= most else None
