"""The tables that docs/promises-check writes into docs/PROMISES.md, worked out from the crates and docs/RULES.md.

  believe    lines of the definitions that a public statement rests on, to the last one: a statement, the definitions in specs/ that it names, those that
             they name. Comments, imports and empty lines are not counted; nor is the prover's own library of numbers and lists.
  calls      each public call with the record that is its contract, and the exported call over it
  index      each rule with the contracts and theorems whose statements have its definitions in them
  theorems   each claim that a rule names and a proof proves
  edits      each must-fail edit of the gate with what its first line says; beside: those of mutation/edits/, by crate"""
import functools
import re

from promises_reach import CRATES, ROOT, file_of, key, reach

# What is promised to whom, and the statements that say it: crate/File, names ('*': all that the file defines).
ROOTS = [
    ("a call on a table", [("scheduler/Step", "Step OfferStep"), ("scheduler/Make", "MakeStep")]),
    ("and lists of calls: the three demands, the order, a record's wait, two lanes, two trains, the clock", [("scheduler/Demands", "EveryList AfterMake AfterRestart AsRuled")]),
    ("and what a host in C or Rust reads, a session's run too", [("zenfrosta/Crossing", "CrossesCall CrossesMaking CrossesRun CrossesOffer"), ("zenfrosta/Heard", "*"), ("zenfrosta/AfterRun", "*"), ("session/Ran", "Ran")]),
    ("the session program", [("console/Prints", "Prints")]),
    ("plans and setups, read and written", [("zenfrosta/Plans", "CrossesSetupRead CrossesSetupWrite"), ("plan_area/Step", "*"), ("plan_writer/RoundTrip", "*")]),
    ("settings pages, read", [("page/Promises", "*")]),
    ("text sheets", [("zenfrosta/Plans", "CrossesSheetRead CrossesSheetWrite"), ("sheet/Promises", "*"), ("sheet_writer/RoundTrip", "*"), ("sheet_area/Step", "*")]),
    ("the desk's board", [("zenfrosta/Board", "*"), ("journal/Step", "*"), ("journal/Bytes", "*"), ("journal/Lists", "*"), ("desk/Claims", "*")]),
    ("tables from before an update", [("zenfrosta/Old", "*")]),
    ("the small halt", [("halt/Halt", "*"), ("halt/Lists", "*"), ("zenfrosta/Halts", "*")]),
    ("a table shown to its host", [("zenfrosta/Views", "*")]),
]

# The crates whose functions without a `requires` are public calls, and the modules of them that are inner ones.
PUBLIC = "scheduler session convert show halt plan plan_writer plan_area page sheet sheet_writer sheet_area journal good old_table".split()
INNER = {"plan/judge.rt", "plan/parse.rt", "plan/reader.rt", "page/parse.rt", "sheet/form.rt", "sheet/judge.rt"}
INNER_CALLS = {"plan::no_lanes", "plan_writer::line_framing", "plan_writer::shared_lanes", "scheduler::tested"}

# The contracts in which the index looks for a rule's definitions: the first that has them is named.
CONTRACTS = [
    ("scheduler/Step", "Step"), ("scheduler/Make", "MakeStep"), ("scheduler/Step", "OfferStep"), ("session/Ran", "Ran"), ("console/Prints", "Prints"),
    ("convert/Converts", "Converts"), ("show/Shows", "Shows"), ("plan_writer/Write", "Writes"), ("plan_area/Step", "ReadStep"), ("plan_area/Step", "WriteStep"),
    ("sheet_writer/Write", "WritesSheet"), ("sheet_area/Step", "SheetReadStep"), ("sheet_area/Step", "SheetWriteStep"), ("depot/Prints", "PrintsText"),
    ("journal/Step", "RecordStep"), ("journal/Step", "BoardStep"), ("journal/Step", "BeginStep"), ("journal/Step", "LineStep"),
    ("zenfrosta/Crossing", "CrossesCall"), ("zenfrosta/Crossing", "CrossesMaking"), ("zenfrosta/Crossing", "CrossesRun"), ("zenfrosta/Crossing", "CrossesOffer"),
    ("zenfrosta/Plans", "CrossesSetupRead"), ("zenfrosta/Plans", "CrossesSetupWrite"), ("zenfrosta/Board", "CrossesLine"), ("zenfrosta/Old", "CrossesConverting"), ("zenfrosta/Views", "CrossesView"),
    ("halt/Halt", "HaltStep"), ("halt/Halt", "HaltMake"), ("zenfrosta/Halts", "CrossesHalt"), ("zenfrosta/Halts", "CrossesHaltMaking"),
    ("scheduler/Demands", "EveryList"),
]

RULE = re.compile(r"\*\*(R(\d+)\.(\d+))\*\*")


def table(head, right, rows):
    """A table of the page; `right` names the columns of numbers."""
    line = "|" + "|".join("---:" if i in right else "---" for i in range(len(head))) + "|"
    return "\n".join(["| " + " | ".join(head) + " |", line, *("| " + " | ".join(row) + " |" for row in rows)])


def believe():
    rows, before = [], {}
    for title, roots in ROOTS:
        blocks = reach(roots)
        more = {k: n for k, n in blocks.items() if k not in before}
        rows.append((title, str(sum(blocks.values())), str(sum(more.values()))))
        before.update(blocks)
    rows.append(("all together", str(sum(before.values())), ""))
    return table(("What is promised", "lines in all", "of them not in a row above"), (1, 2), rows)


def defined_in(name, crate):
    """The file of specs/ that defines a name, the crate's own if there are several; as the page writes it."""
    files = [p for p in sorted(CRATES.glob("*/specs/**/*.antt")) if name in file_of(key(p)).blocks and "declared" not in p.parts]
    own = [p for p in files if p.relative_to(CRATES).parts[0] == crate]
    return "/".join((own or files)[0].relative_to(CRATES).parts) if files else None


FUNCTION = re.compile(r'^pub (extern "C" )?fn (\w+)\((.*?)^\{\n(.*?)^\}', re.M | re.S)


def functions(crate):
    """The public functions of a crate that ask nothing: name, file, what they ensure, body."""
    for path in sorted((CRATES / crate / "src").glob("*.rt")):
        for found in FUNCTION.finditer(path.read_text()):
            ensures = re.search(r"\bensures(?: \w+)? \{(.*)\}", found[3])
            if not re.search(r"\brequires\b", found[3]) and ensures and (found[1] or crate != "zenfrosta"):
                yield found[2], f"{crate}/{path.name}", ensures[1], found[4]


def contract(ensures, crate):
    """The record, or where there is none the definition, by which a function's promise is said."""
    words = [w.rstrip(".").split(".")[-1] for w in re.findall(r"[A-Za-z][\w.'-]*", ensures)]
    upper = [w for w in words if w[0].isupper() and w not in ("Says", "Tells", "Unit") and defined_in(w, crate)]
    right = re.search(r"≡ (\w+)", ensures)
    return upper[0] if upper else right[1] if right and not right[1].isdigit() else None


def calls():
    exported = {}
    for name, _, ensures, body in functions("zenfrosta"):
        record = contract(ensures, "zenfrosta")
        inner = [f"{c}::{f}" for c, f in re.findall(r"\b(\w+)::(\w+)\(", body) if c in PUBLIC]
        exported.setdefault(inner[0] if inner else None, []).append((name, record))
    rows, done = [], set()
    for crate in PUBLIC:
        for name, file, ensures, _ in functions(crate):
            call = f"{crate}::{name}"
            if file in INNER or call in INNER_CALLS:
                continue
            record, over = contract(ensures, crate), exported.get(call, [])
            done.add(call)
            rows.append((f"`{call}`", f"`{record}`", f"`{defined_in(record, crate)}`", ", ".join(f"`{z}`: `{r}`" for z, r in over)))
    for call, over in exported.items():
        if call not in done:
            rows += [("", "", "", f"`{z}`: `{r}`" if r else f"`{z}`") for z, r in over]
    return table(("Public call", "Contract", "In", "Exported: its contract"), (), rows)


@functools.lru_cache(maxsize=None)
def proved():
    """The claims that a theorem proves with no premise: (crate, claim) -> (theorem, file)."""
    found = {}
    for path in sorted(CRATES.glob("*/proofs/**/*.antt")):
        for name, claim in re.findall(r"^pub ([a-z][\w-]*) : ([A-Z]\w*)$", path.read_text(), re.M):
            found.setdefault((path.relative_to(CRATES).parts[0], claim), (name, "/".join(path.relative_to(CRATES).parts)))
    return found


def proof_of(claim, crate):
    """The theorem of a claim: of its own crate, or, where no other crate has a claim of that name, of one above it."""
    if (crate, claim) in proved():
        return proved()[(crate, claim)]
    same = [p for p in CRATES.glob("*/specs/**/*.antt") if "declared" not in p.parts and claim in file_of(key(p)).blocks]
    others = [v for (c, n), v in proved().items() if n == claim]
    return others[0] if len(same) == 1 and others else None


@functools.lru_cache(maxsize=None)
def rules():
    """Each rule with the definitions behind its arrow: (number, [(file, name)])."""
    text, found = (ROOT / "docs/RULES.md").read_text().partition("\n## Not cited\n")[0], []
    for block in re.split(r"\n\s*\n|\n(?=\|)", text):
        rule, file, names = RULE.search(block), None, []
        if not rule:
            continue
        for token in re.findall(r"`([^`\s]+)`", block.partition("→")[2]):
            if "/" in token:
                file = token
            elif file:
                names.append((file, token))
        found.append((rule[1], names))
    return found


def claim_of(file, name):
    """The claim that a name, or a field's record, is; none if it is a definition."""
    claim = name.split(".")[0]
    return claim if not file.endswith(".rt") and proof_of(claim, file.split("/")[0]) else None


@functools.lru_cache(maxsize=None)
def claims():
    """The claims that rules name, with the rules: (file, claim) -> numbers."""
    found = {}
    for rule, names in rules():
        for file, name in names:
            claim = claim_of(file, name)
            if claim and rule not in found.setdefault((file, claim), []):
                found[(file, claim)].append(rule)
    return found


def index():
    reached = [(w, n, set(reach([(w, n)]))) for w, n in CONTRACTS]
    below = [(w, n, set(reach([(w, n)]))) for w, n in claims()]
    rows = []
    for rule, names in rules():
        by = []
        for file, name in names:
            crate = file.split("/")[0]
            if file.endswith(".rt"):
                one = f"the code (`{file}`)"
            elif claim_of(file, name):
                one = f"`{claim_of(file, name)}` ({crate})"
            else:
                blocks, parts = file_of(file).blocks, name.split(".")
                keys = {(file, b[0]) for b in blocks.get(parts[-1], []) + blocks.get(parts[0], [])}
                hit = next(((w, n) for w, n, s in reached + below if keys & s), (file, name))
                one = f"`{hit[1]}` ({hit[0].split('/')[0]})"
            if one not in by:
                by.append(one)
        text, section = "; ".join(by) or "no definition", rule.split(".")[0]
        if rows and rows[-1][2] == text and rows[-1][0].split(".")[0] == section:
            rows[-1][1] = rule
        else:
            rows.append([rule, rule, text])
    return table(("Rules", "Said by"), (), [(a if a == b else f"{a} to {b}", text) for a, b, text in rows])


def theorems():
    rows = []
    for (file, name), of in claims().items():
        theorem, where = proof_of(name, file.split("/")[0])
        rows.append((", ".join(of), f"`{name}`", f"`{file.replace('/', '/specs/', 1)}.antt`", f"`{theorem}`", f"`{where}`"))
    return table(("Rules", "Claim", "In", "Theorem", "In"), (), rows)


def edit_rows(paths, crate_of):
    rows = []
    for path in sorted(paths):
        lines = path.read_text().splitlines()
        what = lines[0] if not lines[0].startswith("file:") else ""
        rows.append((crate_of(path), path.stem, what.rstrip(".")))
    return rows


def edits():
    rows = edit_rows(CRATES.glob("*/must-fail/*.edit"), lambda p: p.parent.parent.name)
    return table(("Must-fail edit", "What it does"), (), [(f"`{c}/{n}`", what) for c, n, what in rows])


def beside():
    by = {}
    for crate, name, _ in edit_rows((ROOT / "mutation/edits").glob("*/*.edit"), lambda p: p.parent.name):
        by.setdefault(crate, []).append(name)
    return table(("Crate", "Edits in `mutation/edits/`"), (), [(f"`{c}`", ", ".join(f"`{n}`" for n in names)) for c, names in by.items()])


TABLES = {"believe": believe, "calls": calls, "index": index, "theorems": theorems, "edits": edits, "beside": beside}
