"""Leaves of a crate's functions their contracts alone.

A function is proved from the contracts of those that it calls. So if one is checked, the bodies of the others need not
be there, nor their proofs: each gets `loop {}` for a body, which has every type, and for a proof a hole, which a check
with --allow-holes takes by its statement. The check of one function then costs that function, and not all below it.

A function that calls others, and they it, is proved in one folder with them. Without their bodies there is no cycle: its
proofs go to a folder of its own. Two kinds of cycle stay whole: one that a function is in which calls itself, and one that
is shown to end.

Bodies are found by the layout of `rt fmt`: a body begins with a line that is `{` under `fn`, or, if there are no clauses,
with the last `{` of the signature, and ends with the first `}` in the column of its `fn`. Left as they are: what is derived,
`main`, and the functions of a generic trait such as `From<AllocError>`, which have short bodies.
"""
import re

HEAD = re.compile(r"^(\s*)(?:pub(?:\([a-z]+\))? )?(?:const )?fn (\w+)")
IMPL = re.compile(r"^impl(?:<.*?>)? (?:([\w:]+(?:<.*>)?) for )?(\w+)")
OF_ONE_TYPE = re.compile(r"^impl (\w+)<([\w, ]+)> \{")
TYPE = re.compile(r"^(?:pub(?:\([a-z]+\))? )?(?:struct|enum) (\w+)", re.M)
CYCLE = re.compile(r"\s*#\[cycle\((\w+)\)\]$")
HOLE = """-- Assumed. Assumes `Logic`.
use Rattle.{crate}.proofs.{module}.Statement.{{statement}}

pub {name}_spec : {{M : Type 1}} → statement M
{name}_spec = ?
"""


class Function:
    """A function of a source file: its path in the crate, its cycle of calls, and the lines of it that can go."""

    def __init__(self, path, head, first, last, cycle):
        self.path, self.head, self.first, self.last, self.cycle = path, head, first, last, cycle

    def name(self):
        """The function, as a check prints it after the crate's name."""
        return "::".join(self.path)

    def ring(self):
        """The function, or its cycle of calls, as its folder in proofs/ is named, but with `::` for `/`."""
        return "::".join([*self.path[:-1], "+" + self.cycle]) if self.cycle else self.name()

    def must_stay_in_cycle(self, room, lines):
        """Whether its body has a call of a function of its name, or its cycle is shown to end, by a number that gets less with each call."""
        invariants = room / "proofs" / self.ring().replace("::", "/") / "Invariants.antt"
        is_shown_to_end = invariants.is_file() and "decreases-" in invariants.read_text()
        return is_shown_to_end or any(re.search(rf"\b{self.path[-1]}\(", line) for line in lines[self.first : self.last])


def module_of(file, src):
    """The path of a source file's module."""
    parts = file.relative_to(src).with_suffix("").parts
    return [*parts[:-1]] if parts[-1] in ("lib", "main", "mod") else [*parts]


def homes_of(src):
    """The path of each type of a crate."""
    return {name: [*module_of(file, src), name] for file in src.rglob("*.rt") for name in TYPE.findall(file.read_text())}


def body_of(lines, head, indent):
    """The first and the last line of the body of the function whose line `head` is, if it has a body over several lines."""
    for first in range(head, len(lines)):
        line = lines[first]
        is_signature_end = first == head or line.startswith(indent + ")")
        if line == indent + "{" or is_signature_end and line.endswith("{"):
            return first, lines.index(indent + "}", first)
        if is_signature_end and line.endswith((";", "{}")) or first > head and (HEAD.match(line) or line == "}"):
            return None
    return None


def cycle_of(lines, head):
    """The cycle of calls that the attributes over a function name."""
    while head and lines[head - 1].lstrip().startswith("#["):
        head -= 1
        if CYCLE.match(lines[head]):
            return CYCLE.match(lines[head])[1]
    return None


def owner_of(line, impl, module, homes):
    """The path of the functions of an `impl` block: that of its type, or of its trait for it; those for one type alone, as
    `impl Store<MemDisk>`, stand in their own module. Empty for a generic trait."""
    one_type, of_trait = OF_ONE_TYPE.match(line), impl[1] or ""
    if one_type:
        return [*module, "+".join([one_type[1], *one_type[2].split(", ")])]
    return [*homes[impl[2]][:-1], impl[2] + of_trait] if impl[2] in homes and re.fullmatch(r"\w*", of_trait) else []


def functions_of(file, src, homes):
    """The functions of a source file that have a body, in its order."""
    lines, owner, found = file.read_text().split("\n"), None, []
    for number, line in enumerate(lines):
        head, impl = HEAD.match(line), IMPL.match(line)
        if impl:
            owner = owner_of(line, impl, module_of(file, src), homes)
        elif line == "}":
            owner = None
        home = owner if head and head[1] else module_of(file, src)
        body = body_of(lines, number, head[1]) if head and head[2] != "main" and (home or not head[1]) else None
        if body:
            found.append(Function([*home, head[2]], number, *body, cycle_of(lines, number)))
    return found


def put_hole(room, crate, function):
    """Puts a hole in the place of a function's proof."""
    name = function.path[-1]
    for folder in (room / "proofs" / function.ring().replace("::", "/"), room / "proofs" / "/".join(function.path)):
        for proof in ("Answers.antt", "Invariants.antt"):
            (folder / proof).unlink(missing_ok=True)
    folder.mkdir(parents=True, exist_ok=True)
    (folder / "Proof.antt").write_text(HOLE.format(crate=crate, module=".".join(function.path), name=name))


def proof_alone(text, function, others):
    """Of the proofs of a cycle those that speak of none of its other functions, by the names that they have in no cycle."""
    name, other = function.path[-1], rf"(?<![\w-])(?:invariant-|iterator-)?(?:{'|'.join(others)})-\w"
    text = re.sub(r"(?m)^(use .*\.)\{(.*)\}$", lambda it: it[1] + "{" + ", ".join(each for each in it[2].split(", ") if not re.match(other, each)) + "}", text)
    own = "\n\n".join(part for part in text.split("\n\n") if not re.search(other, part))
    # Proofs of a cycle know how often it was entered, which `t` is.
    own = re.sub(rf"(?m)^({name}-\S+(?: g)?) t\b", r"\1", own.replace("+" + function.cycle, name))
    return re.sub(rf"(?<![\w-])(invariant-|iterator-|)({name}-)(?=\w)", r"\1", own)


def take_out_of_cycle(room, function, cycle):
    """Has a function proved by itself that calls others of its cycle, and not itself: they have nothing left but their contracts."""
    others = [it.path[-1] for it in cycle if it.name() != function.name()]
    alone = room / "proofs" / "/".join(function.path)
    alone.mkdir(parents=True, exist_ok=True)
    for proof in (room / "proofs" / function.ring().replace("::", "/")).glob("*.antt"):
        (alone / proof.name).write_text(proof_alone(proof.read_text(), function, others))


def leave_contracts(room, crate, kept):
    """Leaves in a copy of a crate the contracts alone of all functions but those that are kept, and but the cycles of those
    among them that call themselves."""
    src = room / "src"
    homes = homes_of(src)
    files = {file: functions_of(file, src, homes) for file in sorted(src.rglob("*.rt"))}
    whole = {it.ring() for file in files for it in files[file] if it.name() in kept and it.must_stay_in_cycle(room, file.read_text().split("\n"))}
    every = [it for file in files for it in files[file]]
    for function in [it for it in every if it.name() in kept and it.cycle and it.ring() not in whole]:
        take_out_of_cycle(room, function, [it for it in every if it.ring() == function.ring()])
    for file in files:
        lines = file.read_text().split("\n")
        for function in reversed([it for it in files[file] if it.ring() not in whole]):
            if function.name() not in kept:
                lines[function.first + 1 : function.last] = ["loop {}"]
                put_hole(room, crate, function)
            for number in range(function.head - 1, -1, -1):
                if not lines[number].lstrip().startswith("#["):
                    break
                if CYCLE.match(lines[number]):
                    del lines[number]
        file.write_text("\n".join(lines))
