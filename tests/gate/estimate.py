"""How long a step will go on, from the lines of what is to be proved and the seconds that docs/CHECK-TIMES.md has of an earlier run."""

import re

# seconds that the record's own pace counts for: so much must have passed before this machine's pace weighs as much
STEADY = 60
# where the record has no whole run: seconds of the clock for a line, several crates being proved at a time
USUAL_PACE = 0.01
# an edit begins with what its crate's check proved, and costs so much of it
OF_AN_EDIT = 0.2


def recorded(root, heading):
    """The first two columns of the table with this heading: names and seconds."""
    seconds, inside = {}, False
    for line in (root / "docs" / "CHECK-TIMES.md").read_text(encoding="utf-8").splitlines():
        if not line.startswith("|"):
            inside = False
            continue
        cells = [cell.strip() for cell in line.strip("|").split("|")]
        if cells[0] == heading:
            inside = True
        elif inside and cells[1].isdigit():
            seconds[cells[0]] = int(cells[1])
    return seconds


def dependencies(root):
    """The crates of crates.txt, each with those it names."""
    named = {}
    for line in (root / "crates.txt").read_text(encoding="utf-8").splitlines():
        found = re.match(r"\s*(\w+)(?: +staticlib)?\s*:([^#]*)", line)
        if found:
            named[found[1]] = found[2].split()
    return {crate: [below for below in names if below in named] for crate, names in named.items()}


def with_those_below(named, crates):
    """These crates and all that they rest on."""
    reached, left = set(), list(crates)
    while left:
        crate = left.pop()
        if crate not in reached:
            reached.add(crate)
            left.extend(named.get(crate, []))
    return reached


def expected_items(root, crates, edits):
    """What is to be told of: (kind, name) of the crates, all if none is named, of their edits, and of their programs."""
    named = dependencies(root)
    reached = with_those_below(named, crates or named)
    items = [("crate", crate) for crate in sorted(reached)]
    for crate in sorted(reached):
        folder = root / "crates" / crate
        if edits:
            items += [("edit", f"{crate}/{edit.stem}") for edit in sorted(folder.glob("must-fail/*.edit"))]
        if (folder / "src" / "main.rt").exists():
            items.append(("run", crate))
    return items


def lines_of(folder):
    """How many lines of code, definitions and proofs a crate has."""
    files = [file for part in ("src", "specs", "proofs") for file in (folder / part).rglob("*") if file.suffix in (".rt", ".antt")]
    return sum(file.read_bytes().count(b"\n") for file in files)


def weights(root, items):
    """What each item costs, in lines; a program's run next to nothing."""
    lines = {name: lines_of(root / "crates" / name) for kind, name in items if kind == "crate"}
    costs = {"crate": 1, "edit": OF_AN_EDIT, "run": 0}
    return {(kind, name): costs[kind] * lines[name.split("/")[0]] for kind, name in items}


class Estimate:
    """What is left of a step, item by item."""

    def __init__(self, root, items, then=()):
        steps = recorded(root, "step")
        self.named = dependencies(root)
        self.to_do = weights(root, items)
        self.kinds = [kind for kind, _ in items]
        whole = sum(weights(root, expected_items(root, [], True)).values()) if "proofs" in steps else 0
        self.pace = steps["proofs"] / whole if whole else USUAL_PACE
        self.after = sum(steps.get(step, 0) for step in then)
        self.spent = 0
        self.tried = None  # the crate whose edits are being tried

    def total(self, kind):
        return self.kinds.count(kind)

    def done(self, kind, name, worked):
        """Takes an item off; what took no work says nothing of the pace, and with a crate that took none go its edits."""
        weight = self.to_do.pop((kind, name), 0)
        self.spent += weight if worked else 0
        if kind == "crate" and not worked:
            self.take_edits(name)
        if kind == "crate":
            # of those below that stood already nothing may be told
            for below in with_those_below(self.named, [name]):
                self.to_do.pop(("crate", below), None)
        if kind == "edit":
            # they are told of when all were tried
            self.to_do = {item: cost for item, cost in self.to_do.items() if item[0] != "edit"}

    def trying(self, name):
        """A crate's edits are begun: those that were begun before are as good as done."""
        self.spent += self.take_edits(self.tried) if self.tried else 0
        self.tried = name

    def take_edits(self, crate):
        """Takes the edits of a crate off, and gives what they cost."""
        edits = [item for item in self.to_do if item[0] == "edit" and item[1].startswith(f"{crate}/")]
        return sum(self.to_do.pop(item) for item in edits)

    def left(self, elapsed):
        """The seconds left; None where nothing was expected."""
        if not self.kinds:
            return None
        slower = (STEADY + elapsed) / (STEADY + self.spent * self.pace)
        return (sum(self.to_do.values()) * self.pace + self.after) * slower


def spoken(seconds):
    """Seconds as they are said."""
    minutes, rest = divmod(round(seconds), 60)
    return f"{minutes} min {rest} s" if minutes else f"{rest} s"


def roughly(seconds):
    """The same for an estimate: minutes, or tens of seconds."""
    if seconds >= 90:
        return f"{round(seconds / 60)} min"
    return f"{max(10, -(-round(seconds) // 10) * 10)} s"
