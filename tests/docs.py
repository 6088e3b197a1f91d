#!/usr/bin/env python3
"""Compares what the pages name with what is there: links and files, definitions and clauses, modules and crates; the
fault codes and the options of the manual pages with those of the sources, and the options of each command on a page with
that program's; how many lines a file has; the numbers of the toolchain; the files of cases with those that are run; how
many words the pages have. Sees that each page, and some answers that readers look for, are found within three pages from
README.md by following links, and that lines aren't too long.

usage: tests/docs.py ROOT

Prints each name that is stale, and at last how many were compared; the status is 1 where one is stale, or where a kind of
name was found nowhere. Definitions and clauses are cited as `CRATE/specs/PAGE.antt`: `A`, `B`, or by a link from [`A`, `B`] to that file; what is quoted of a file
stands, indented, below a link to it and a colon; modules are cited as `CRATE`'s `A`, and lengths as
`CRATE/src/FILE.rt` (N lines). Without `rt` the numbers of the toolchain aren't compared.
"""
import re
import shutil
import subprocess
import sys
from functools import lru_cache
from pathlib import Path

KINDS = ["link", "heading", "file", "definition or clause", "module", "name", "crate", "fault code", "option"]
KINDS += ["option of a command", "page", "answer", "length", "count", "line", "words", "file of cases", "quotation"]
KINDS += ["length of the adaptors"]
KIT_KINDS = ["number of the toolchain"]
FOLDERS = r"docs|tests|bench|packaging|companions|tools|crates|\.ci|\w+(?=/(?:src|specs|proofs|must-fail)/)"
FILE = re.compile(rf"(?<![\w/.~-])((?:{FOLDERS})/[\w./*-]*|[A-Z]+\.md|crates\.txt)")
NAMES = r"`[^`\n]+`(?:(?:,| and|, and)\s+`[^`\n]+`)*"
CITATION = re.compile(rf"`([\w/]+\.(?:rt|antt))`:\s+({NAMES})")
LINKED = re.compile(r"\[(`[^\]]+`)\]\((?:\.\./)+crates/([^)#\s]+)\)")
QUOTED = re.compile(r"\]\(\.\./crates/([^)#\s]+)\)\):\n\n((?:    .*\n)+)")
ADAPTORS = ["bag_system/src/system_disk.rt", "bag_system/src/base_folder.rt", "bag_system/src/system_fault.rt"]
ADAPTORS += ["bag_program/src/system_file.rt", "bag_system/src/ownership.rt", "bag_system/src/trouble.rt"]
MODULES = re.compile(rf"`(\w+)`'s ({NAMES})")
ANSWERS = {  # what a reader looks for: the page, and what stands there
    "how to go back after a failed creation": ("docs/RECOVERY.md", r"^## A bag wasn't created$.*^ +rmdir \.bagit-new$"),
    "how to change the payload": ("docs/UPDATING.md", r"^## Add, remove or rename payload files$.*^    bagit-keep repack "),
    "how to add an algorithm": ("docs/UPDATING.md", r"^    bagit-renew --add sha512 deposit\b"),
    "what to do after an interrupted update": ("docs/RECOVERY.md", r"^## After an interrupted update$.*\*\*give the same command again\*\*"),
    "how to receive a bag": ("docs/OPERATIONS.md", r"^## Receive a deposit$\s+^    bagit-keep receive "),
    "which keys of a profile are checked": ("docs/PROFILES.md", r"^    bagit --validate --profile .*^## The keys$"),
    "how to check with a profile, from a program": ("docs/LIBRARY.md", r"^## A check$.*\bProfile::read\(.*\bSome\(&profile\)"),
    "what the program promises": ("docs/ASSURANCE.md", r"`honest_disks_are_reported`"),
    "what stands under 'exactly those faults'": ("docs/THEOREM.md", r"(?i)\bexactly th[eo]se faults\b.*specs/Report\.antt\)"),
    "where a new fault code goes": ("docs/ARCHITECTURE.md", r"^\*\*A fault code\*\*$\s+1\. "),
    "how to prove one function": ("CONTRIBUTING.md", r"^## One function$.*^    rt check --only "),
}
MOST_LINKS = 2  # of a way to an answer, so that it takes three pages
MOST_COLUMNS = 120
MOST_WORDS = 22_000
WITH_NAMES = ("ASSURANCE.md", "THEOREM.md", "LIMITS.md", "ARCHITECTURE.md")

if {"-h", "--help"} & set(sys.argv[1:]):
    print(__doc__.strip())
    sys.exit()
if not sys.argv[1:]:
    sys.exit("usage: tests/docs.py ROOT")
root = Path(sys.argv[1]).resolve()
crates = root / "crates"
compared, stale = {}, []


def compare(kind, page, name, is_there):
    compared[kind] = compared.get(kind, 0) + 1
    if not is_there:
        stale.append(f"{page.relative_to(root)}: {kind} {name}")


@lru_cache(None)
def text_of(path):
    return path.read_text() if path.is_file() else ""


@lru_cache(None)
def source_of(crate):
    return "\n".join(text_of(path) for path in sorted((crates / crate / "src").glob("*.rt")))


def output_of(*words):
    return subprocess.run(words, stdin=subprocess.DEVNULL, capture_output=True, text=True, check=True).stdout


def quoted(text):
    return re.findall(r"`([^`\n]+)`", text)


def part_of(text, start, end):
    return text[text.index(f"\n## {start}") : text.index(f"\n## {end}")]


def declares(text, name, is_source):
    """Whether a file declares the name: an item, a field or a clause of it, or a definition."""
    name = re.escape(name.split("::")[-1])
    if is_source:
        item = rf"\b(?:fn|trait|struct|enum|type|const|static|ensures\*?|requires\*?|ghost) {name}\b"
        return bool(re.search(rf"{item}|^ *(?:pub )?{name}: ", text, re.M))
    return bool(re.search(rf"^ *(?:(?:abbrev|pub|unfoldable|record|data) )*{name}(?: |$)", text, re.M))


def has_module(crate, name):
    return (crates / crate / "src" / f"{name}.rt").exists() or declares(source_of(crate), name, True)


def compare_files(page, text):
    """Links with their headings, and paths from the root, from crates/ or the page; not what is built, nor words such as NAME."""
    for link, heading in re.findall(r"\]\(([^)#\s]*)#?([^)\s]*)\)", text):
        target = page.parent / link if link else page
        if link.startswith("http"):
            continue
        compare("link", page, link, target.exists())
        if heading:
            compare("heading", page, f"{link}#{heading}", heading in headings_of(text_of(target)))
    for name in FILE.findall(text):
        name = name.rstrip(".-")
        if "/out" in name or re.search(r"/[A-Z]+(/|$)", name):
            continue
        bases = (root, crates, page.parent)
        compare("file", page, name, any(any(base.glob(name)) if "*" in name else (base / name).exists() for base in bases))


def headings_of(text):
    """The headings of a page, as links name them."""
    return {re.sub(r"[^\w -]", "", title.lower()).replace(" ", "-") for title in re.findall(r"^#+ (.*)$", text, re.M)}


def compare_citations(page, text):
    for path, names in CITATION.findall(text) + [(path, names) for names, path in LINKED.findall(text)]:
        for name in quoted(names):
            there = declares(text_of(crates / path), name, path.endswith(".rt"))
            compare("definition or clause", page, f"{path}: {name}", there)
    for crate, names in MODULES.findall(text):
        for name in quoted(names) if (crates / crate).exists() else ():
            if "/" not in name and not (crates / name).exists():
                compare("module", page, f"{crate}: {name}", has_module(crate, name))


def compare_quotations(page, text):
    for path, block in QUOTED.findall(text):
        found = " ".join(block.split()) in " ".join(text_of(crates / path).split())
        compare("quotation", page, f"of {path}: {block.strip()}", found)


def compare_names(page, text, words):
    """Whatever looks like a name of ours stands somewhere in the sources."""
    for name in quoted(text):
        if re.fullmatch(r"[A-Za-z]\w*(::\w+)?", name) and re.search(r"[a-z][A-Z]|_", name):
            compare("name", page, name, set(name.split("::")) <= words)


def compare_counts(page, text):
    """What docs/TESTING.md begins with: no more than there are, and not far fewer."""
    cases = "\n".join(text_of(path) for path in (crates / "test_cases" / "data").glob("*.cases"))
    tests = sum(text_of(path).count("#[test]") for path in crates.glob("*/src/*.rt"))
    counts = {"cases": len(re.findall("^case ", cases, re.M)), "rows": len(re.findall("^- .* => ", cases, re.M))}
    counts |= {"files": len([*(crates / "test_cases" / "data").glob("*.cases")]), "tests in Rattle": tests}
    counts["scripts"] = sum(bool(path.stat().st_mode & 0o100) for path in (root / "tests").glob("*.sh"))
    counts["mutants"] = len([*crates.glob("*/must-fail/*")])
    opening = " ".join(text.partition("\n## ")[0].split())
    for kind, found in counts.items():
        said = [int(number) for number in re.findall(rf"(\d+) {kind}\b", opening)]
        compare("count", page, f"of {kind}: there are {found}", len(said) == 1 and said[0] <= found <= 1.2 * said[0])


def crates_proved_again():
    """How many crates are proved again if one changes: itself, and all that need it."""
    needs = {}
    for crate, names in re.findall(r"^(\w+):(.*)$", text_of(root / "crates.txt"), re.M):
        needs[crate] = set(names.split()).union(*(needs.get(name, ()) for name in names.split()))
    return {crate: 1 + sum(crate in needed for needed in needs.values()) for crate in needs}


def compare_crates(page, text):
    """The drawing has each crate, with how many crates are proved again if it changes."""
    drawing = text.partition("\n## ")[0]
    again = crates_proved_again()
    drawn = [(name, int(number)) for name, number in re.findall(r"(\w+) \[(\d+)\]", drawing)]
    for name, number in drawn:
        compare("crate", page, f"{name} [{number}]", again.get(name) == number)
    for path in crates.glob("*/src"):
        name = path.parent.name
        compare("crate", page, f"{name} isn't drawn once", [drawn_name for drawn_name, _ in drawn].count(name) == 1)


def fault_codes():
    """Each code as `NUMBER WORD`, by the definitions."""
    text = text_of(crates / "bag_text/specs/Code.antt") + text_of(crates / "bag_text/specs/CodeWord.antt")
    words = dict(re.findall(r'^word code\.(\w+) = codes "([a-z0-9-]+)"$', text, re.M))
    return {f"{number} {words[name]}" for name, number in re.findall(r"^number code\.(\w+) = (\d+)$", text, re.M)}


def compare_codes(page, text):
    """The codes of FAULTS, and of the cases that list all codes, are those of the definitions."""
    cases = crates / "test_cases" / "data"
    lines = text_of(cases / "fault-lines.cases").split("case a line of each code ")[1].split("\ncase ")[0]
    lists = {page: re.findall(r"^\| ?(\d{3}) ?\| ?`([a-z0-9-]+)` ?", text, re.M)}
    all_codes = cases / "codes-and-algorithms.cases"
    lists[all_codes] = re.findall(r"^- (\d{3}) => (?!none$)(.*)$", text_of(all_codes), re.M)
    lists[cases / "fault-lines.cases"] = re.findall(r"^- (\d{3}) ([a-z0-9-]+) ", lines, re.M)
    codes = fault_codes()
    for path, found in lists.items():
        listed = {" ".join(pair) for pair in found}
        for code in codes | listed:
            compare("fault code", path, code, code in codes & listed)


def options_in(text):
    return set(re.findall(r"(?<![\w-])--[a-z](?:[.]?[a-z0-9-])*|(?<![\w-])-h\b", text.replace("\\-", "-")))


def program_options():
    """The options that the sources give the program, and those that any program of clap has."""
    source = crates / "bag_arguments" / "src"
    names = re.findall(r'\bflag\(\s*alloc,\s*"([a-z-]+)"', text_of(source / "command.rt"))
    names += re.findall(r'\bCheckOption::\w+ => "([a-z-]+)"', text_of(source / "check_option.rt"))
    names += re.findall(r'\bLabel::\w+ => "([a-z][a-z-]*)"', text_of(source / "label.rt"))
    names += re.findall(r'\bAlg::\w+ => "([a-z][a-z0-9]*)"', text_of(crates / "bag_text" / "src" / "alg.rt"))
    return {f"--{name}" for name in names} | {"-h", "--help"}


def renewing_options():
    """The same of the program that renews bags."""
    source = text_of(crates / "bag_renew_cli" / "src" / "command.rt")
    names = re.findall(r'\b(?:flag|option|several)\(\s*alloc,\s*"([a-z0-9.-]+)"', source)
    return {f"--{name}" for name in names} | {"-h", "--help"}


def companion_options(program, *words):
    """The options of a program that is installed beside bagit, or of a command of it, as its --help lists them."""
    return options_in("\n".join(re.findall(r"^  (-.*?)(?:  |$)", output_of(program, *words, "--help"), re.M)))


@lru_cache(None)
def programs():
    """The options of each program, and of each command of bagit-keep."""
    keep = root / "companions" / "bagit-keep"
    found = {"bagit": program_options(), "bagit-renew": renewing_options(), "bagit-keep": companion_options(keep)}
    for command in re.findall(r"^  ([a-z]+) ", output_of(keep, "--help"), re.M):
        found[f"bagit-keep {command}"] = companion_options(keep, command)
    return found


def compare_options():
    """The options of each manual page are those of the sources; those of a command of bagit-keep are those of its --help."""
    for name, options in programs().items():
        page = root / "docs" / f"{name.replace(' ', '-')}.1"
        listed = options_in(text_of(page).partition("\n.SH OPTIONS")[2].split("\n.SH ")[0])
        for option in options | listed:
            compare("option", page, option, option in options & listed)


def commands_in(text):
    """The commands of a page, in blocks and between backticks, each without what follows ` -- `."""
    lines = re.findall(r"^(?:    | *\$ )(.*)$", re.sub(r"\\\n *", "", text), re.M) + quoted(text)
    for line in lines:
        for command in re.split(r"&&|\|\||[|;()]", line.removeprefix("$ ")):
            yield command.partition(" -- ")[0].partition(" #")[0].split()


def compare_commands(page, text):
    """Each option of a command on a page is one of that program."""
    for words in commands_in(text):
        name = " ".join(words[:2]) if words[:1] == ["bagit-keep"] and len(words) > 1 else " ".join(words[:1])
        if name.startswith("bagit") and (name in programs() or words[0] == "bagit-keep"):
            for option in options_in(" ".join(words)):
                is_there = option in programs().get(name, ()) or option in ("-h", "--help")
                compare("option of a command", page, f"{name} {option}", is_there)


def links_from_readme():
    """How many links lead from README.md to each page, at the least."""
    steps, found = {root / "README.md": 0}, [root / "README.md"]
    for page in found:
        for link in re.findall(r"\]\(([^)#\s]+\.md)", text_of(page)):
            target = (page.parent / link).resolve()
            if target.exists() and target not in steps:
                steps[target] = steps[page] + 1
                found.append(target)
    return steps


def compare_answers(pages):
    steps = links_from_readme()
    for page in pages:
        compare("page", page, f"isn't found within {MOST_LINKS + 1} pages", steps.get(page, MOST_LINKS + 1) <= MOST_LINKS)
    for question, (name, form) in ANSWERS.items():
        page = root / name
        is_near = steps.get(page, MOST_LINKS + 1) <= MOST_LINKS
        compare("answer", page, question, is_near and re.search(form, text_of(page), re.M | re.S))


def compare_form(page, text):
    """A page's lines: but for tables, marks for scripts, and words that can't be broken."""
    for number, line in enumerate(text.splitlines(), 1):
        is_free = line.startswith(("|", "<!--")) or any(len(word) > MOST_COLUMNS - 40 for word in line.split())
        compare("line", page, f"{number} of {len(line)} characters", is_free or len(line) <= MOST_COLUMNS)


def compare_words(pages):
    """How many words the pages have that somebody wrote."""
    found = sum(len(text_of(page).split()) for page in pages if page.parent.name != "generated")
    compare("words", root / "README.md", f"of all pages: {found}, of {MOST_WORDS} at most", found <= MOST_WORDS)


def compare_lengths(page, text):
    for name, length in re.findall(r"`([\w/]+\.rt)`\s+\((\d+)\s+lines\)", text):
        found = len(text_of(crates / name).splitlines())
        compare("length", page, f"of {name} is {length} lines, and should be {found}", int(length) == found)


def compare_adaptors(page, text):
    """How many lines the six adaptors over the system's calls have."""
    right = sum(len(text_of(crates / name).splitlines()) for name in ADAPTORS)
    for lines in re.findall(r"(\d+)\s+lines\s+in\s+six\s+files", text):
        compare("length of the adaptors", page, f"is {lines} lines, and should be {right}", int(lines) == right)


def compare_kit(pages):
    """Each number of the logic is that of `rt version`, and each version of Unicode that of the kit's crate."""
    crate = Path(output_of("rt", "doc").strip()).parent / "rattle" / "unicode_normalization"
    logic = re.search(r"logic (\w+)", output_of("rt", "version"))[1]
    unicode = re.search(r"at Unicode (\d+\.\d+)", text_of(crate / "README.md"))[1]
    for form, right in (r"`([0-9a-f]{16})`", logic), (r"Unicode (\d+\.\d+)", unicode):
        found = [(page, number) for page in pages for number in re.findall(form, text_of(page))]
        compare("number of the toolchain", root / "README.md", f"{right}, which no page names", found)
        for page, number in found:
            compare("number of the toolchain", page, f"{number} should be {right}", number == right)


def compare_case_files():
    """Each file of cases is an argument of the program that runs them, and each broken one is named by a case."""
    cases = crates / "test_cases"
    broken = set(re.findall(r"[\w-]+\.cases", text_of(cases / "data" / "broken.cases")))
    lists = {"data": set(text_of(cases / "args").split()), "data/broken": broken}
    for folder, listed in lists.items():
        names = {path.name for path in (cases / folder).glob("*.cases")}
        for name in sorted(names | listed if folder == "data" else names):
            compare("file of cases", cases / "args", f"{name} isn't run, or isn't in {folder}", name in names & listed)


def main():
    sources = [path for form in ("*/src/*.rt", "*/specs/*.antt") for path in crates.glob(form)] + [root / "crates.txt"]
    words = {word for path in sources for word in re.findall(r"\w+", text_of(path))}
    pages = sorted(path for folder in (".", "docs", "docs/generated", "bench") for path in (root / folder).glob("*.md"))
    for page in pages:
        text = text_of(page)
        compare_files(page, text)
        compare_citations(page, text)
        compare_form(page, text)
        compare_lengths(page, text)
        compare_quotations(page, text)
        compare_adaptors(page, text)
        compare_commands(page, text)
        if page.name in WITH_NAMES:
            compare_names(page, text, words)
    parts = [("ARCHITECTURE", compare_crates), ("FAULTS", compare_codes)]
    parts += [("TESTING", compare_counts)]
    for name, compare_page in parts:
        page = root / "docs" / f"{name}.md"
        compare_page(page, text_of(page))
    compare_options()
    compare_answers(pages)
    compare_case_files()
    compare_words(pages)
    kinds = KINDS
    if shutil.which("rt"):
        compare_kit(pages)
        kinds = KINDS + KIT_KINDS
    print(*stale, sep="\n", end="\n" if stale else "")
    print("compared: " + ", ".join(f"{compared.get(kind, 0)} times {kind}" for kind in kinds))
    sys.exit(bool(stale) or not all(compared.get(kind) for kind in kinds))


main()
