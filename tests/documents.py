#!/usr/bin/env python3
"""Holds the documents to the tree, and prints each disagreement.

- docs/PROOFS.md has the tables that tools/map makes of the laws' docstrings. Each public law has one; a law is a public function that gives nothing and changes nothing.
  Each file and definition that the table at its top names stands in the crates that the row names.
- Each script that the table of docs/UNPROVED.md names is there.
- Each path that README names is there, and a law that stands in one row with a path is a law of that file.
- docs/ARCHITECTURE.md has the picture and the table that tools/map makes of crates.txt. Each definition that it names is there.
  Each file of src/ and specs/, but for tests, says at its head what it holds.
- docs/PREMISES.md quotes the premises and definitions that they name, as they stand in the file named above them, and quotes no other, in at most 300 lines.
  What these name and it doesn't quote stands in its table of words, with the file that has it, and no other word does. The crates of its last table
  have the laws and definitions that the rows name. docs/LEDGER.md does the same of law `ledger_holds_once` and of the ledger's steps, in at most 200 lines.
- Each block of code of a page is text of the file that the line above it names. Each link of a page goes to a file, and to a heading of it.
  Where a page begins with its contents they have each of its parts.
- Each topic that docs/PROFILE.md names is one of docs/PROTOCOL.md, and each topic there that has a choice of our own is named.
- docs/PROFILE.md calls whole those codes that docs/PROTOCOL.md has in its tables of messages, and gives no code two rows.
- Each picture of an exchange in docs/PROTOCOL.md has the steps of the script named above it, whose account examples.sh compares with a run, and tells that account. (turns.py and
  restart.py hold the two that show more.)
- man/osdp.1 has each text that the program prints on standard error.
- Each crate, script and folder that any page names is there; a name with `osdp_` may be one of the header for C too.
- Each call, law and type that running text of any page names between backticks is a word of the tree's sources, or of the toolchain's.
- No page, manual page or script says "behind" or "want of memory". No sentence of a page has more than 60 words, but in the list of what is left to do.
- README has lines of at most 120 characters. docs/DEVELOPING.md has at most 120 lines, docs/ARCHITECTURE.md 300, docs/GUIDE.md and docs/PROOFS.md 500, docs/LEDGER.md 200, docs/PROGRAMS.md 120, and no row of
  a table has more than 200 characters. docs/HEADLINE.md has at most 1,550 words, which are read in some seven minutes."""
import re
import runpy
import subprocess
import sys
import textwrap
from pathlib import Path

TOP = Path(__file__).resolve().parent.parent
PAGES = ["README.md", "bench/README.md", "c/README.md", "examples/README.md", "python/README.md", "rust/README.md", *sorted(f"docs/{file.name}" for file in (TOP / "docs").glob("*.md"))]
LAW = re.compile(r"^pub fn (\w+)(.*?)(?=^    (?:ensures|requires)|^{)", re.M | re.S)
NAMED = re.compile(r"(laws?|clauses?)?\s*`([^`]+)`")
WORD = re.compile(r"\w+")
faults = []


def crates():
    """The crates of crates.txt."""
    lines = (line.split("#")[0] for line in (TOP / "crates.txt").read_text().splitlines())
    return [line.split(":")[0].split()[0] for line in lines if ":" in line]


def sources(crate, *folders):
    """The text of a crate's files in these folders."""
    return "\n".join(
        file.read_text()
        for folder in folders
        for file in sorted((TOP / "crates" / crate / folder).rglob("*"))
        if file.suffix in (".rt", ".antt")
    )


def laws(text):
    """The laws of a text: public functions that give nothing and change nothing."""
    return {name for name, head in LAW.findall(text) if "->" not in head and "&mut" not in head}


def rows(body):
    """The cells of each row of a body's tables."""
    for line in body.splitlines():
        if line.startswith("|") and not re.match(r"\|[-| ]+\|$", line):
            yield [cell.strip() for cell in re.split(r"(?<!\\)\|", line)[1:-1]]


def judge_row(where, cell, known_laws, words, files):
    """Looks up what the last cell of a row names."""
    kind = None
    for said, name in NAMED.findall(cell):
        if said:
            kind = said.rstrip("s")
        elif not re.search(r"(,|and)\s*`" + re.escape(name), cell):
            kind = None
        if "/" in name or name.endswith(".rt"):
            if not any((TOP / "crates" / crate / name).exists() for crate in files):
                faults.append(f"{where}: there is no file {name}")
        elif kind == "law" and name[0].islower() and WORD.findall(name)[-1] not in known_laws:
            faults.append(f"{where}: there is no law {name}")
        elif not all(word in words for word in WORD.findall(name)):
            faults.append(f"{where}: {name} is not in {', '.join(files)}")


def moves_drawn(picture):
    """The steps of a schedule that a picture of an exchange shows."""
    steps = []
    for line in picture.splitlines():
        line = line.strip()
        if line.startswith("panel->>reader:"):
            steps.append("to-reader deliver")
        elif line.startswith("reader-->>panel:"):
            steps.append("to-controller deliver")
        elif line.startswith("reader--xpanel:"):
            steps.append("to-controller drop")
        elif pause := re.match(r"Note over panel: (\d+) ms", line):
            steps.append(f"wait {pause[1]}")
        elif busy := re.match(r"Note over reader: busy (on|off)", line):
            steps.append(f"busy 1 {busy[1]}")
    return steps


def judge_exchanges():
    """docs/PROTOCOL.md: each picture of an exchange shows the steps of the script named above it, and what its account tells."""
    text = (TOP / "docs/PROTOCOL.md").read_text()
    named = re.findall(r"^From `examples/(\w+)\.script`:\n\n```mermaid\n(.*?)```$", text, re.M | re.S)
    for name, picture in named:
        if "participant" in picture:
            continue  # of several readers: `turns.py` holds it to a run
        lines = (TOP / f"examples/{name}.script").read_text().splitlines()
        begins = lines.index("clean 0") + 1 if "clean 0" in lines else next(at for at, line in enumerate(lines) if line.startswith("wait"))
        steps = lines[begins:]
        account = (TOP / f"examples/{name}.account").read_text().splitlines()[1:]
        if moves_drawn(picture) != steps:
            faults.append(f"docs/PROTOCOL.md: the picture of {name} shows other steps")
        if re.findall(r"Note over \w+: ((?:taken|settled|unsettled|reported|ended) .*)", picture) != account:
            faults.append(f"docs/PROTOCOL.md: the picture of {name} tells another account")
    if len(named) < 5:
        faults.append("docs/PROTOCOL.md: pictures of exchanges are not there")


def judge_proofs(all_crates):
    """docs/PROOFS.md: its tables are those of the laws as the tree has them, and each law says what it says. What the table at its top names is there."""
    text = (TOP / "docs/PROOFS.md").read_text()
    tool = runpy.run_path(str(TOP / "tools/map"))
    if tool["proofs_text"]() != text:
        faults.append("docs/PROOFS.md: the tables of the laws are old ones (tools/map --write)")
    for crate in all_crates:
        for file, name, said in tool["laws"](crate):
            if not said:
                faults.append(f"crates/{crate}/src/{file}: law {name} has no docstring")
    for cells in rows(text.split(tool["BEGIN"])[0]):
        named = [crate for crate in re.findall(r"`(\w+)`", cells[-1]) if crate in all_crates]
        stems = {file.stem for crate in named for file in (TOP / "crates" / crate).rglob("*.antt")}
        known = {word for crate in named for word in WORD.findall(sources(crate, "src", "specs"))} | stems | set(all_crates)
        for name in re.findall(r"`([^`]+)`", cells[-1]):
            if "/" in name and not any((TOP / "crates" / front / name).exists() or (TOP / "crates" / front / f"{name}.antt").exists() for front in ["", *named]):
                faults.append(f"docs/PROOFS.md: there is no {name}")
            elif "/" not in name and " " not in name and name not in known:
                faults.append(f"docs/PROOFS.md: {name} is not in {', '.join(named)}")


def judge_unproved():
    """docs/UNPROVED.md: the scripts that its table names are there."""
    for cells in rows((TOP / "docs/UNPROVED.md").read_text()):
        for name in re.findall(r"`(\w+\.(?:sh|py))`", cells[-1]):
            if not (TOP / "tests" / name).exists():
                faults.append(f"docs/UNPROVED.md: there is no tests/{name}")


def judge_readme():
    """README: its paths are there, and so are the laws that stand in one row with a path."""
    path = None
    for cells in rows((TOP / "README.md").read_text()):
        paths = re.findall(r"`([\w./-]+/[\w./-]+)`", cells[-1])
        path = paths[0] if paths else path if "the same" in cells[-1] else None
        for each in paths:
            if not (TOP / each).exists():
                faults.append(f"README.md: there is no {each}")
        if path and path.endswith(".rt") and (TOP / path).exists():
            for name in re.findall(r"`(\w+)`", cells[1] if len(cells) > 2 else ""):
                if not re.search(rf"\b{name}\b", (TOP / path).read_text()):
                    faults.append(f"README.md: {name} is not in {path}")


def judge_architecture(all_crates):
    """docs/ARCHITECTURE.md: the picture and the table of the crates are those of the tree; the definitions that it names are there."""
    text = (TOP / "docs/ARCHITECTURE.md").read_text()
    tool = runpy.run_path(str(TOP / "tools/map"))
    if tool["page_text"]() != text:
        faults.append("docs/ARCHITECTURE.md: the picture or the table of the crates is an old one (tools/map --write)")
    for cells in rows(text):
        if len(cells) == 4:
            named = [crate for crate in re.findall(r"`(\w+)`", cells[0]) if crate in all_crates]
            stems = [file.stem for crate in named for file in (TOP / "crates" / crate / "specs").rglob("*.antt")]
            known = {name for crate in named for name in WORD.findall(sources(crate, "specs")) + stems}
            for name in re.findall(r"`(\w+)`", cells[3]):
                if name not in known:
                    faults.append(f"docs/ARCHITECTURE.md: {name} is no definition of {', '.join(named)}")


def judge_heads(all_crates):
    """Each file of src/ and specs/, but for tests, begins with a sentence that says what it holds, which `tools/map CRATE` prints."""
    tool = runpy.run_path(str(TOP / "tools/map"))
    for crate in [name for name in all_crates if not name.endswith("_tests")]:
        for file in sorted((TOP / "crates" / crate).rglob("*")):
            folder = file.relative_to(TOP / "crates" / crate).parts[0]
            if folder in ("src", "specs") and file.suffix in (".rt", ".antt") and file.stem != "Lib" and not tool["head"](file):
                faults.append(f"{file.relative_to(TOP)}: its head doesn't say what it holds")


def judge_manual():
    """man/osdp.1: each text of a fault is told, with N for its number."""
    manual = re.sub(r'" (\w) "', r"\1", (TOP / "man/osdp.1").read_text()).replace('"', "")
    for fault in re.findall(r'#\[error\("(.*)"\)\]', (TOP / "crates/osdp_tool_streams/src/fault.rt").read_text()):
        if not re.search(r"\s+".join(map(re.escape, fault.replace("{0}", "N").split())), manual):
            faults.append(f"man/osdp.1: {fault} is not told")


def judge_code(page):
    """A page with code: each block of code is text of the file named above it."""
    text = (TOP / page).read_text()
    named = re.findall(r"^From `([^`]+)`:\n\n```(?:rust|c|python)\n(.*?)```$", text, re.M | re.S)
    for name, block in named:
        if not (TOP / name).exists() or block not in (TOP / name).read_text():
            faults.append(f"{page}: a block is not in {name}: {block.splitlines()[0]}")
    if len(named) != len(re.findall(r"^```(?:rust|c|python)$", text, re.M)):
        faults.append(f"{page}: a block of code names no file")


def anchor(heading):
    """What a link to a heading says after the `#`."""
    return re.sub(r"[^\w -]", "", heading.lower()).replace(" ", "-")


def judge_links(page):
    """Any page: what its links go to is there. Where it begins with its contents each part is among them."""
    text = (TOP / page).read_text()
    if re.search(r"^\| Part \| What it is for \|$|^\*\*Contents\.\*\*", text, re.M):
        for heading in re.findall(r"^## (.*)$", text, re.M):
            if f"](#{anchor(heading)})" not in text:
                faults.append(f"{page}: its contents don't have {heading}")
    for path, part in re.findall(r"\]\(([^)#:]*)(?:#([^)]*))?\)", (TOP / page).read_text()):
        file = ((TOP / page).parent / path).resolve() if path else TOP / page
        if not file.exists():
            faults.append(f"{page}: a link to {path}")
        elif part and part not in {anchor(heading) for heading in re.findall(r"^#+ (.*)$", file.read_text(), re.M)}:
            faults.append(f"{page}: a link to {path}#{part}")


def paragraphs(text):
    """The paragraphs of a text, each with its first line at the left."""
    return [textwrap.dedent(part).strip("\n") for part in re.split(r"\n\s*\n", text)]


def without_comments(part):
    """A paragraph without the comments, and the head of a module, above its first definition."""
    lines = part.splitlines()
    while lines and lines[0].lstrip().startswith(("--", "module ")):
        lines.pop(0)
    return textwrap.dedent("\n".join(lines))


def defined_in(file):
    """The names that a file of definitions defines, and those that it takes from other files of this repository."""
    text = (TOP / file).read_text()
    own = set(re.findall(r"^ *(?:abbrev|unfoldable) pub (\w+)|^ *pub (?:record|data) (\w+)", text, re.M))
    taken = re.findall(r"^use Rattle\.osdp_[\w.]+?\.\{(.*)\}$", text, re.M)
    renamed = re.findall(r"^use Rattle\.osdp_[\w.]+ as (\w+)$", text, re.M)
    return {name for pair in own for name in pair if name}, set(WORD.findall(" ".join(taken))) | set(renamed)


def named_by(file, part):
    """The definitions that a paragraph of a file names: not fields, nor what it binds itself."""
    body = re.sub(r"--.*|\.[a-z]\w*|\bpub [a-z]\w* :|\([\w ]+ :", " ", part)
    own, taken = defined_in(file)
    return set(WORD.findall(body)) & (own | taken)


def judge_quotes(page, begun, least, after_words):
    """A page: its quotes are the definitions that it begins with, and those that they name, as they stand in the files, and its words are what these name besides.
    Its table of words ends before a heading, if one comes."""
    text = (TOP / page).read_text()
    quoted = {}
    for file, block in re.findall(r"^From `([^`]+)`:\n\n```antt\n(.*?)```$", text, re.M | re.S):
        there = [without_comments(part) for part in paragraphs((TOP / file).read_text())]
        for part in paragraphs(block.strip("\n")):
            name = (re.search(r"pub (?:record |data )?(\w+)", part) or [part, part])[1]
            if part not in there:
                faults.append(f"{page}: {name} stands otherwise in {file}")
            quoted.setdefault(name, set()).update(named_by(file, part) - {name})
            if part.startswith("pub data"):
                cases = re.findall(r"^  (\w+) :", part, re.M)
                quoted.update({each: set() for each in cases})
                quoted[name].update(cases)
    reached, found = set(begun), set()
    while reached - found:
        found |= reached
        reached |= {other for name in reached for other in quoted.get(name, ())}
    words = text[text.index("## Words of the quotes") :]
    told = list(rows(words[: words.index(after_words)] if after_words else words))[1:]
    table = {name: cells[1] for cells in told for name in re.findall(r"`(\w+)`", cells[0])}
    for name in sorted(quoted.keys() - reached):
        faults.append(f"{page}: {name} is quoted, and nothing that is quoted names it")
    for name in sorted(reached - quoted.keys() - table.keys()):
        faults.append(f"{page}: {name} is named in a quote, and is neither quoted nor told in the table of words")
    for name, files in sorted(table.items()):
        if name not in reached:
            faults.append(f"{page}: the table of words has {name}, which no quote names")
        paths = re.findall(r"`([\w./]+)`", files)
        those = [path if "/" in path else f"{paths[0].rpartition('/')[0]}/{path}" for path in paths]
        if paths and name != "bus" and not any(re.search(rf"\bpub (?:record |data )?{name}\b|^ +{name} :", (TOP / "crates" / path).read_text(), re.M) for path in those):
            faults.append(f"{page}: {name} is not in {files}")
    if len(quoted) < least:
        faults.append(f"{page}: quotes are not there")


def judge_carriers(page):
    """A page: the crates from the statement to the bytes have the laws and definitions that its rows name."""
    text = (TOP / page).read_text()
    carried = [cells for cells in rows(text[text.index("## From the statement") :]) if len(cells) == 3][1:]
    for crates_cell, _, carriers in carried:
        named = re.findall(r"`(\w+)`", crates_cell)
        source = "\n".join(sources(crate, "src", "specs", "proofs") for crate in named)
        judge_row(page, carriers, laws(source), set(WORD.findall(source)), named)
    if len(carried) < 8:
        faults.append(f"{page}: the crates from the statement to the bytes are not there")


def topics_chosen(text):
    """The headings over each choice of our own."""
    over, under = None, None
    for line in text.splitlines():
        if line.startswith("## "):
            over, under = line[3:], None
        elif line.startswith("### "):
            under = line[4:]
        elif over and re.search(r"\b[Oo]ur own choice\b", line):
            yield {over, under} - {None}


def judge_profile():
    """docs/PROFILE.md: the topics of its last table are headings of docs/PROTOCOL.md, among them all with a choice of our own."""
    rules = (TOP / "docs/PROTOCOL.md").read_text()
    headings = re.findall(r"^##+ (.*)$", rules, re.M)
    text = (TOP / "docs/PROFILE.md").read_text()
    told = set()
    for choice, topics in [cells for cells in rows(text[text.index("## Where we chose"):])][1:]:
        for topic in topics.split("; "):
            if topic not in headings:
                faults.append(f"docs/PROFILE.md: PROTOCOL.md has no topic {topic}")
            told.add(topic)
    for chosen in topics_chosen(rules):
        if not chosen & told:
            faults.append(f"docs/PROFILE.md: PROTOCOL.md has a choice of our own under {max(chosen, key=headings.index)}")


def judge_page(page, all_crates):
    """Any page: the crates, exports, scripts and folders that it names are there, and its rows are short."""
    text = (TOP / page).read_text()
    exports = re.findall(r"\b(osdp_[a-z_]+)\(", "".join((TOP / f"include/{name}.h").read_text() for name in ("osdp", "osdp_site")))
    for name in sorted(set(re.findall(r"`(osdp_[a-z_]+)`", text))):
        if name not in all_crates and name not in exports:
            faults.append(f"{page}: there is no crate {name}")
    for name in sorted(set(re.findall(r"`((?:bench|c|crates/osdp\w+|demo|docs|examples|include|man|port|python|release|rust|tests|tools)/[\w./-]*)", text))):
        if not (TOP / name).exists() and not ((TOP / page).parent / name).exists():
            faults.append(f"{page}: there is no {name}")
    for number, line in enumerate(text.splitlines(), 1):
        if line.startswith("|") and len(line) > 200:
            faults.append(f"{page}, line {number}: a row of {len(line)} characters")


def codes_of(page, heading, keep):
    """The codes in the first cells of a part's first table, of the rows that are kept."""
    body = re.split(r"^##+ " + heading, (TOP / page).read_text(), flags=re.M)[1].split("\n#")[0]
    tables = [list(rows(table)) for table in body.split("\n\n") if table.startswith("| Code |")]
    return [code for cells in tables[0][1:] if keep(cells) for code in re.findall(r"\b[0-9A-F]{2}\b", cells[0])]


def judge_messages():
    """docs/PROFILE.md: each message of docs/PROTOCOL.md is whole there, and no other; no code has two rows."""
    for part in ("Commands", "Replies"):
        there = codes_of("docs/PROTOCOL.md", part, lambda cells: True)
        whole = codes_of("docs/PROFILE.md", part, lambda cells: cells[2].startswith("whole"))
        every = codes_of("docs/PROFILE.md", part, lambda cells: True)
        for code in sorted(set(there) ^ set(whole)):
            faults.append(f"docs/PROFILE.md, {part}: {code} is whole in one of PROFILE and PROTOCOL alone")
        for code in sorted({code for code in every if every.count(code) > 1}):
            faults.append(f"docs/PROFILE.md, {part}: {code} has two rows")


def plain_texts():
    """What is written for people: pages, manual pages and scripts."""
    for folder in ("", "docs", "man", "tests", "tests/c", "tests/rows", "tools", "bench", "c", "demo", "examples", "examples/c", "include", "port", "port/osdp_port", "port/osdp_port/page", "port/osdp_port/page/web", "python", "python/osdp", "python/examples", "release", "rust", "rust/src", "rust/examples"):
        for file in sorted((TOP / folder).iterdir()):
            if file.is_file() and file != Path(__file__).resolve():
                yield file, file.read_text(errors="replace")


def judge_words():
    """The words that stand for others: "after" is meant by the first, "out of memory" by the second."""
    for file, text in plain_texts():
        for word in re.findall(r"\bbehind\b|\bwant\s+of\s+memory\b", text):
            faults.append(f"{file.relative_to(TOP)}: says {word}")


def sentences(text):
    """The sentences of a page: of its paragraphs, the items of its lists and the cells of its tables. Code is left out."""
    text = re.sub(r"^```.*?^```$", "", text, flags=re.M | re.S)
    for part in re.split(r"\n\s*\n|^\||\n\||\n#|\n\s*(?:[-*]|\d+\.) ", text):
        for cell in part.split(" | "):
            yield from re.split(r"(?<=[.:?!])\s+(?=[A-Z`*\[])", " ".join(cell.split()))


def judge_sentences(page):
    """Any page: no sentence is longer than can be read at once."""
    for sentence in sentences((TOP / page).read_text().split("\n## Next\n")[0]):
        if len(sentence.split()) > 60:
            faults.append(f"{page}: {len(sentence.split())} words: {sentence[:60]}")


# Calls of the toolchain's crates that a page explains.
OF_TOOLCHAIN = {"also_shares", "as_slices", "make_contiguous"}


def words_of_sources():
    """Each word of each file of the tree that is no page, and each file's name."""
    kept = subprocess.run(["git", "ls-files"], cwd=TOP, capture_output=True, text=True, check=True).stdout.splitlines()
    words = set(OF_TOOLCHAIN)
    for file in kept:
        path = TOP / file
        if path.suffix in (".md", ".png") or not path.is_file():
            continue
        words.add(path.stem)
        words.update(WORD.findall(path.read_text(errors="ignore")))
    return words


def judge_names(page, words):
    """Any page: a call, law or type that it names still has that name."""
    prose = re.sub(r"```.*?```", "", (TOP / page).read_text(), flags=re.S)
    for said in re.findall(r"`([^`\n]+)`", prose):
        calls = re.findall(r"(?<![\w./-])([a-z][a-z0-9]*(?:_[a-z0-9]+)+)(?![\w/])", said)
        for name in calls + re.findall(r"^([A-Z][a-z0-9]+\w*)(?:[:(].*)?$", said):
            if name not in words:
                faults.append(f"{page}: no source of the tree has {name}")


def judge_lengths():
    """The first page and the page for developers are short."""
    readme = (TOP / "README.md").read_text().splitlines()
    if max(map(len, readme)) > 120:
        faults.append("README.md: a line of more than 120 characters")
    for page, most in (("docs/DEVELOPING.md", 120), ("docs/ARCHITECTURE.md", 300), ("docs/GUIDE.md", 500), ("docs/PROOFS.md", 500), ("docs/LEDGER.md", 200), ("docs/PREMISES.md", 300), ("docs/PROGRAMS.md", 120)):
        if len((TOP / page).read_text().splitlines()) > most:
            faults.append(f"{page}: more than {most} lines")
    if len(re.findall(r"[\w`]\S*", (TOP / "docs/HEADLINE.md").read_text())) > 1550:
        faults.append("docs/HEADLINE.md: more than 1,550 words")


if __name__ == "__main__":
    every = crates()
    judge_proofs(every)
    judge_unproved()
    judge_readme()
    judge_architecture(every)
    judge_heads(every)
    judge_exchanges()
    judge_manual()
    judge_quotes("docs/PREMISES.md", {"AllKeep", "IsSetUp"}, 15, "## From the statement")
    judge_carriers("docs/PREMISES.md")
    judge_quotes("docs/LEDGER.md", {"LedgerHoldsOnce", "Ledger", "May"}, 5, "## To the letter")
    judge_profile()
    every_word = words_of_sources()
    for each_page in PAGES:
        judge_page(each_page, every)
        judge_names(each_page, every_word)
        judge_code(each_page)
        judge_links(each_page)
        judge_sentences(each_page)
    judge_messages()
    judge_words()
    judge_lengths()
    for fault in faults:
        print(fault)
    print(f"documents: {len(faults)} faults")
    sys.exit(1 if faults else 0)
