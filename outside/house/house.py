# Looks at crates/ for what breaks the rules of the house, and prints the places. Called by outside/house/run.
import collections
import pathlib
import re
import sys

TOP = pathlib.Path(__file__).resolve().parent.parent.parent

# Names that two crates define in specs/ with good reason: the crates, and why.
ALLOWED = {
    "check": ({"block", "table", "journal"}, "each the answer of its crate's public `check`"),
    "number": ({"refusals", "le"}, "each the answer of its crate's function: the number of a refusal, the number that bytes hold"),
    "ReadThenWrite": ({"image", "journal_write"}, "each of what its crate reads and writes"),
    "WriteThenRead": ({"image", "journal_write"}, "each of what its crate writes and reads"),
    "quorum": ({"sets", "questions"}, "the public answer is named like the definition that it gives out"),
    "largest": ({"sets", "questions"}, "the public answer is named like the definition that it gives out"),
    "intact": ({"verdicts", "questions"}, "the public answer is named like the definition that it gives out"),
}

# Files of proofs/ that are no laws: what the check itself reads of a function's proof, what is stated over every contract, examples, the list of modules.
PROOFS = {"Proof.antt", "Invariants.antt", "Answers.antt", "Coincide.antt", "Examples.antt", "Lib.antt"}

DECLARED = re.compile(r"( *)(?:abbrev |unfoldable )?pub (record )?([^\s:(]+)")
WORD = re.compile(r"[^\s(){};,.\"]+")

found = collections.defaultdict(list)


def report(rule, path, line, text):
    found[rule].append(f"{path.relative_to(TOP)}:{line}: {text}")


def declarations(lines):
    """The public definitions of a file that are no fields of records: line, indentation and name."""
    record = None
    for i, line in enumerate(lines):
        indent = len(line) - len(line.lstrip())
        if line.strip() and record is not None and indent <= record:
            record = None
        m = DECLARED.match(line)
        if m and m[3] not in ("mod", "use", "data") and record is None:
            yield i, indent, m[3]
        if record is None and re.match(r" *(pub )?record ", line):
            record = indent


def facts(contract):
    """How many facts a contract has: its parts between ` × ` outside parentheses. A pair `(x : T) × ..` is one fact, and so is what follows an arrow."""
    depth, start, group, count = 0, 0, "", 1
    for i, c in enumerate(contract):
        if c in "([{":
            if depth == 0:
                start = i
            depth += 1
        elif c in ")]}":
            depth -= 1
            if depth == 0:
                group = contract[start:i + 1]
        elif depth == 0 and contract.startswith(" → ", i):
            return count
        elif depth == 0 and contract.startswith(" × ", i):
            if group and contract[:i].endswith(group) and re.match(r"\([^\s():]+( [^\s():]+)* : ", group):
                return count
            count += 1
    return count


def lengths(files):
    for path, lines in files.items():
        part = path.relative_to(TOP).parts[2]
        most = 240 if part == "proofs" else 160
        for i, line in enumerate(lines, 1):
            if len(line) > most:
                report(f"lines longer than {most} characters", path, i, f"{len(line)} characters")


def contracts(files):
    for path, lines in files.items():
        if path.suffix != ".rt":
            continue
        for i, line in enumerate(lines, 1):
            m = re.match(r"\s*(requires)\b[^{]*\{ (.*?) ?\}?,?$", line)
            if m and facts(m[2]) > 1:
                report(f"`{m[1]}` lines that hold two facts", path, i, f"{facts(m[2])} facts")


def edits():
    rule = "wrong versions that do not apply"
    listed = {words[0] for words in (re.split(r"[ :#]", line) for line in (TOP / "crates.txt").read_text().splitlines()) if words[0]}
    for path in sorted(TOP.glob("crates/*/must-fail/*.edit")):
        if path.parent.parent.name not in listed:  # its files stand as texts
            continue
        text, old, pairs, files = None, "", 0, {}
        for i, line in enumerate(path.read_text().split("\n"), 1):
            if "/*" in line or "*/" in line:
                report(rule, path, i, "a comment mark, `/*` or `*/`")
            if line.startswith("file: "):
                text = path.parent.parent / line[6:]
                if text not in files:
                    files[text] = text.read_text() if text.is_file() else None
                if files[text] is None:
                    report(rule, path, i, f"no file {line[6:]}")
            elif line.startswith("old: "):
                old = line[5:]
            elif line.startswith("new:"):
                pairs += 1
                if text is None:
                    report(rule, path, i, "no `file:` before it")
                elif files[text] is not None:
                    times = files[text].count(old) if old else 0
                    if times != 1:
                        report(rule, path, i, f"the old text stands {times} times in {text.relative_to(path.parent.parent)}")
                    else:
                        files[text] = files[text].replace(old, line[4:].removeprefix(" "))
                old = ""
        if not pairs:
            report(rule, path, 1, "no `old:` and `new:`")


def laws(files):
    """Public laws whose name nothing else says. What a law's own lines say does not count, nor a comment, nor that a file brings the name in."""
    theorems = set()
    for path, lines in files.items():
        if path.relative_to(TOP).parts[2] == "specs":
            theorems |= {m[1] for m in (re.match(r" *(?:abbrev pub|pub record) (\S+) : Type", line) for line in lines) if m}
    said = collections.Counter()
    words = {}
    for path, lines in files.items():
        words[path] = []
        for line in lines:
            if re.match(r"\s*(--|//)", line):
                here = []
            elif re.match(r"\s*(pub |ghost )?use ", line):
                here = re.findall(r"([^\s{},]+) as ", line)
            else:
                here = WORD.findall(line)
            words[path].append(here)
            said.update(here)
    for path, lines in files.items():
        if path.relative_to(TOP).parts[2] != "proofs" or path.name in PROOFS:
            continue
        for i, indent, name in declarations(lines):
            m = re.match(r" *(?:abbrev )?pub \S+ : *(\S*)", lines[i])
            if not m or m[1] in theorems:
                continue
            end = i + 1
            while end < len(lines) and not (len(lines[end]) - len(lines[end].lstrip()) <= indent
                                            and re.match(r"\s*(--|use |module |pub |abbrev |unfoldable |infix|[^\s(){}]+ :)", lines[end])):
                end += 1
            for part in [p for p in name.split("◌") if p]:
                if said[part] == sum(here.count(part) for here in words[path][i:end]):
                    report("public laws that nothing uses", path, i + 1, name)
                    break


def names(files):
    """Names that two crates define in specs/."""
    rule = "names that two crates define"
    places = collections.defaultdict(list)
    for path, lines in files.items():
        parts = path.relative_to(TOP).parts
        if parts[2] == "specs":
            for i, _, name in declarations(lines):
                places[name].append((parts[1], f"{path.relative_to(TOP)}:{i + 1}"))
    for name, where in sorted(places.items()):
        among = {crate for crate, _ in where}
        if len(among) > 1 and not (name in ALLOWED and among <= ALLOWED[name][0]):
            found[rule].append(f"{name}: " + ", ".join(place for _, place in where))
    for name, (among, _) in ALLOWED.items():
        if not among <= {crate for crate, _ in places[name]}:
            found["names allowed to two crates that do not both define them"].append(f"{name}: {', '.join(sorted(among))}")


def main():
    paths = [*TOP.glob("crates/*/src/**/*.rt"), *TOP.glob("crates/*/specs/**/*.antt"), *TOP.glob("crates/*/proofs/**/*.antt")]
    files = {path: path.read_text().split("\n") for path in sorted(paths)}
    lengths(files)
    contracts(files)
    edits()
    laws(files)
    names(files)
    for rule, places in found.items():
        print(f"house: {rule}: {len(places)}")
        for place in places:
            print(f"    {place}")
    if found:
        sys.exit(1)
    print("house: in order")


main()
