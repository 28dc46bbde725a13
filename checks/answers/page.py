"""docs/ANSWERS.md against the sources: how each public call refuses, why, and what stands then.

A public call is one that another crate can make: a `pub fn`, a method of a type or of a trait that
the `lib.rt` of a library hands out. It may refuse where its result's type says so: by `Result`, by
`Option` or by a status. The page has rows for each such call, in the table of its crate:
    | `CALL` | `ANSWER`, .. | cause | what stands then |
A row without a call is about the call of the row above. The rows of a call have each answer of its
type that says no, once. In the last two columns `NAME` is a clause of that call or an answer of the
row, and *its clause* the only one of a call, without a name.

- A cause names clauses, one of which at least speaks of refusals, or is *free*, where memory was
  wanted, or *left*, where a `None` leaves the answer to another reader, or **not said**.
- What stands is *whole* exactly where the call takes nothing by `&mut` or by value. Of what it
  takes by value one of HANDED is said. All else is said by clauses that speak of refusals, or is
  **not said**. It is nothing where the cause begins with "never:".

Two lists are written by this script: the calls whose rows have **not said**, and all other calls.
"""

import re
import sys
import textwrap
from pathlib import Path

TOP = Path(__file__).resolve().parent.parent.parent
PAGE = TOP / "docs/ANSWERS.md"
UNSAID = "## What no clause says"
OTHERS = "## Calls that refuse nothing"

REFUSING = {"Result", "Option", "Status"}
# errors that have one value, and those of them that want memory
SINGLE = {"NoMemory", "AllocError", "BadAddress", "BadCidr", "Failed"}
WANTS_MEMORY = {"NoMemory", "AllocError"}
COPIED = set("bool char u8 u16 u32 u64 u128 usize Global".split())
# what becomes of something that was taken by value
HANDED = ("*gone*", "handed back", "is kept")
# room for the next call, of which nothing is shown
SHOWS_NOTHING = {"Scratch", "Interner"}

QUOTED = re.compile(
    r"""//[^\n]*|/\*.*?\*/|\bb?r(?P<hash>\#*)".*?"(?P=hash)|"""
    r"""b?"(?:\\.|[^"\\])*"|b?'(?:\\[^\n']+|[^\\'\n])'""",
    re.S,
)


def blanked(text):
    """The text with comments, strings and characters turned to blanks, at the same places."""
    return QUOTED.sub(lambda it: re.sub(r"[^\n]", " ", it[0]), text)


def end_of(text, at):
    """The place of the bracket that closes the one at `at`."""
    depth = 0
    for place in range(at, len(text)):
        depth += (text[place] in "([{") - (text[place] in ")]}")
        if not depth:
            return place
    raise ValueError(f"no bracket closes: {text[at:at + 60]}")


def after_generics(text):
    """The text after the `<..>` that it may begin with."""
    depth = 0
    for place, it in enumerate(text):
        depth += (it == "<") - (it == ">" and text[place - 1] != "-")
        if not depth:
            return text[place + 1 :] if place else text
    raise ValueError(f"no bracket closes: {text[:60]}")


def parts_of(text):
    """What stands between the commas that are in no bracket."""
    parts, depth = [""], 0
    for it in text:
        depth += (it in "([{<") - (it in ")]}>")
        parts += [""] if it == "," and not depth else []
        parts[-1] += it if it != "," or depth else ""
    return [it.strip() for it in parts if it.strip()]


class Block:
    """An `impl` or a `trait`: whose methods it has, and where it stands."""

    def __init__(self, text, found):
        brace = text.index("{", found.end())
        head = after_generics(text[found.end() : brace].lstrip())
        self.is_trait = found[1] == "trait"
        self.is_of_trait = not self.is_trait and bool(re.search(r"\bfor\b", head))
        self.owner = re.search(r"\w+", head)[0]
        self.places = range(brace, end_of(text, brace))


class Call:
    """A function: its path, what it takes and answers, and its clauses."""

    def __init__(self, text, found, block):
        self.owner = block.owner if block else None
        self.path = f"{self.owner}::{found[1]}" if block else found[1]
        head = text[text.rfind("\n", 0, found.start()) + 1 : found.start()]
        self.is_pub = bool(re.search(r"\bpub\s", head)) or bool(block and block.is_trait)
        opening = text.index("(", len(text) - len(after_generics(text[found.end() :])))
        closing = end_of(text, opening)
        self.takes = parts_of(" ".join(text[opening + 1 : closing].split()))
        self.clauses = {}
        # what a slice has is no answer
        self.result = re.sub(r"\[.*\]", "[]", self.read_rest(text, closing + 1))

    def read_rest(self, text, at):
        """Reads the clauses after the arguments, and gives the type of the result."""
        begun, result = at, None
        while text[at] != ";":
            if text[at] in "([":
                at = end_of(text, at)
            elif text[at] == "{":
                clause = re.search(r"\b(ghost|requires|ensures)\*?\s*(\w*):?\s*$", text[begun:at])
                if result is None:
                    result = text[begun : begun + clause.start() if clause else at]
                if not clause:
                    break
                end = end_of(text, at)
                if clause[1] == "ensures":
                    self.clauses[clause[2]] = text[at + 1 : end].strip()
                begun = at = end + 1
                continue
            at += 1
        result = text[begun:at] if result is None else result
        return re.split(r"\bwhere\b", result.partition("->")[2])[0]

    def is_on_accepted(self, clause):
        """Whether a clause says something of accepted calls alone: a status may itself say no."""
        if re.match(r"\s*Option<Status>", self.result):
            return False
        return bool(re.match(r"(If|On)(Ok|Some) result", self.clauses[clause]))

    def may_refuse(self):
        return bool(REFUSING & set(re.findall(r"\w+", self.result)))

    def answers(self, faults):
        """Its answers that say no; "?" is one of a type that isn't known here."""
        words = set(re.findall(r"\w+", self.result))
        told = set().union(*(faults.get(it, {it} & SINGLE) for it in words))
        if "Result" in words and not told:
            # what is told of a value that may be absent is an answer with a refusal of its own
            told = {"Err"} if re.match(r"\s*Option<Result<", self.result) else {"?"}
        return told | ({"None"} if "Option" in words else set())

    def may_change(self):
        """Whether it takes something by `&mut` of which something is shown."""
        changed = [it for it in self.takes if re.search(r"&('\w+ )?mut\b", it)]
        changed = [it.replace("self", self.owner or "self") for it in changed]
        return any(not SHOWS_NOTHING & set(re.findall(r"\w+", it)) for it in changed)

    def takes_over(self, copied):
        """Whether it takes something by value that isn't copied."""
        kinds = [it.rpartition(": ")[2] for it in self.takes if "&" not in it]
        kinds = [self.owner if it in ("self", "mut self") else it for it in kinds]
        return any(re.search(r"\w+", it)[0] not in copied for it in kinds)


def types():
    """The answers that say no of each type of faults, and the names of types that are copied."""
    faults, copied = {}, set(COPIED)
    for file in sorted(TOP.glob("crates/*/src/**/*.rt")):
        text = blanked(file.read_text())
        found = r"^(#\[derive\(.*\)\]\n)?pub (enum|struct) (\w+)"
        for derived, kind, name in re.findall(found, text, re.M):
            copied |= {name} if "Copy" in derived else set()
            if kind == "enum" and re.search(r"(Fault|Status)$", name):
                at = text.index("{", text.index(f"pub enum {name}"))
                cases = text[at + 1 : end_of(text, at)]
                cases = re.sub(r"\{[^{}]*\}|\([^()]*\)", "", cases)
                faults[name] = set(re.findall(r"\w+", cases)) - {"Done"}
    return faults, copied


def calls_in(text):
    """The functions of a file that belong to no implementation of a trait."""
    blocks = [Block(text, it) for it in re.finditer(r"^(?:pub )?(impl|trait)\b", text, re.M)]
    for found in re.finditer(r"\bfn\s+(\w+)", text):
        block = next((it for it in blocks if found.start() in it.places), None)
        if not (block and block.is_of_trait):
            yield Call(text, found, block)


def public_calls(crate):
    """The public calls of a crate by their paths."""
    src = TOP / "crates" / crate / "src"
    lib = blanked((src / "lib.rt").read_text())
    modules = set(re.findall(r"^pub mod (\w+);", lib, re.M)) | {"lib"}
    names = set()
    for used in re.findall(r"^pub use (?!kp_)([^;]+);", lib, re.M):
        names |= set(re.findall(r"\w+", used.rpartition("::")[2]))
    found = {}
    for file in sorted(src.glob("**/*.rt")):
        module = file.relative_to(src).parts[0].removesuffix(".rt")
        for call in calls_in(blanked(file.read_text())):
            name = call.owner or call.path
            if call.is_pub and (name in names or module in modules):
                found[call.path] = call
    return dict(sorted(found.items()))


def libraries():
    """The crates that others can call, lowest first."""
    text = (TOP / "crates.txt").read_text()
    names = re.findall(r"^(\w+):", text, re.M)
    return [it for it in names if (TOP / f"crates/{it}/src/lib.rt").exists()]


class Row:
    """A row of the page: its line, its call, and its columns."""

    def __init__(self, at, crate, path, columns):
        self.at, self.crate, self.path = at, crate, path
        self.answers = set(re.findall(r"`(\w+)`", columns[1]))
        self.cause, self.after = columns[2:]

    def is_unsaid(self):
        return "**not said**" in self.cause + self.after

    def named(self, text):
        """The clauses that a column names; the one without a name is ""."""
        unnamed = {""} if "*its clause*" in text else set()
        return set(re.findall(r"`([^`]+)`", text)) - self.answers | unnamed

    def faults(self, call, copied):
        """What is wrong with its cause, and with what it says to stand then."""
        named = self.named(self.cause) | self.named(self.after)
        found = [f"has no clause {it}" for it in sorted(named - set(call.clauses) - {""})]
        found += ["has no clause without a name"] if "" in named - set(call.clauses) else []
        return found or self.cause_faults(call) + self.after_faults(call, copied)

    def cause_faults(self, call):
        if "**not said**" in self.cause or "*free*" in self.cause and self.answers <= WANTS_MEMORY:
            return []
        if "*left*" in self.cause and self.answers == {"None"}:
            return []
        # of `None` and `Err` inside an accepted answer the clauses on accepted calls speak
        refuses = {it for it in self.named(self.cause) if not call.is_on_accepted(it)}
        if refuses or self.answers <= WANTS_MEMORY | {"None", "Err"} and self.named(self.cause):
            return []
        return [f"has no clause that speaks of {', '.join(sorted(self.answers))}"]

    def after_faults(self, call, copied):
        if self.cause.startswith("never:"):
            return [] if self.after == "nothing" else ["never comes, so nothing stands then"]
        may_change, takes_over = call.may_change(), call.takes_over(copied)
        if not may_change and not takes_over:
            return [] if self.after == "*whole*" else ["changes nothing: *whole*"]
        found, named = [], self.named(self.after)
        if takes_over and not any(it in self.after for it in HANDED):
            found.append(f"takes something by value: {' or '.join(HANDED)}")
        if may_change and not named and "**not said**" not in self.after:
            found.append("may change something, of which no clause is named")
        if self.answers != {"None"}:
            accepted = sorted(it or "its clause" for it in named if call.is_on_accepted(it))
            found += [f"{it} speaks of accepted calls alone" for it in accepted]
        return found


def all_rows(lines):
    crate = path = None
    for at, line in enumerate(lines):
        if line.startswith("## "):
            crate = line.strip("#` ")
        columns = [it.strip() for it in line.strip().strip("|").split(" | ")]
        if re.match(r"\| [`|]", line) and len(columns) == 4:
            path = columns[0].strip("`") or path
            yield Row(at, crate, path, columns)


def listed(calls):
    """The paths of calls by crate, as the text of a list."""
    text = ""
    for crate, paths in calls.items():
        said = f"- `{crate}`: {', '.join(f'`{it}`' for it in paths)}."
        text += textwrap.fill(said, 100, subsequent_indent="  ", break_on_hyphens=False) + "\n"
    return text


def with_list(page, heading, text):
    """The page with this text under a heading, after the paragraph that explains it."""
    begin = page.index(f"\n{heading}\n")
    begin = page.index("\n\n", page.index("\n\n", begin) + 2) + 2
    end = page.find("\n## ", begin - 1)
    return page[:begin] + text + (page[end:] if end >= 0 else "")


def compare(write):
    """Compares the page with the sources, or writes its lists, and gives what is to be mended."""
    page, (faults, copied) = PAGE.read_text(), types()
    rows, found, unsaid, others = list(all_rows(page.split("\n"))), [], {}, {}
    for crate in libraries():
        calls = public_calls(crate)
        for path, call in calls.items():
            own = [it for it in rows if (it.crate, it.path) == (crate, path)]
            for row in own:
                where = f"docs/ANSWERS.md:{row.at + 1}: {crate}: "
                found += [f"{where}{path}: {it}" for it in row.faults(call, copied)]
            told = sorted(it for row in own for it in row.answers)
            wanted = sorted(call.answers(faults)) if call.may_refuse() else []
            if told != wanted:
                rightly = ", ".join(wanted) or "nothing: it refuses nothing"
                found.append(f"docs/ANSWERS.md: {crate}: the rows of {path} have to have {rightly}")
            if any(it.is_unsaid() for it in own):
                unsaid.setdefault(crate, []).append(path)
            if not call.may_refuse():
                others.setdefault(crate, []).append(path)
        for row in rows:
            if row.crate == crate and row.path not in calls:
                found.append(f"docs/ANSWERS.md:{row.at + 1}: {crate} has no public call {row.path}")
    strange = {it.crate for it in rows} - set(libraries())
    found += [f"docs/ANSWERS.md: there is no library {it}" for it in sorted(strange)]
    new = with_list(with_list(page, UNSAID, listed(unsaid)), OTHERS, listed(others))
    if write:
        PAGE.write_text(new)
    elif new != page:
        found.append("docs/ANSWERS.md: its lists aren't the sources': checks/answers/run --write")
    return found


def main(words):
    if words not in ([], ["--write"]):
        print(__doc__, file=sys.stderr)
        return 2
    complaints = compare(bool(words))
    for line in complaints:
        print(line)
    return int(bool(complaints))


if __name__ == "__main__":
    sys.exit(main(sys.argv[1:]))
