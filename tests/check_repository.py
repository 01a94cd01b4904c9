#!/usr/bin/env python3
"""What the repository promises of itself: statements for public functions, one C face, definitions only in specs/, true documents."""
import glob
import os
import re
import shutil
import subprocess
import tempfile
import textwrap

ROOT = os.path.dirname(os.path.dirname(os.path.abspath(__file__)))
os.chdir(ROOT)
FUNCTION = re.compile(r"^\s*(?:#\[unsafe\(no_mangle\)\]\s*)?pub\s+(?:extern\s+\"C\"\s+)?fn\s+(\w+)", re.M)


def text(path):
    with open(path, encoding="utf-8") as file:
        return file.read()


def sources(kind):
    return sorted(glob.glob(f"crates/*/{kind}/**/*", recursive=True))


def public_functions():
    """(path, name, the text from the name to the body) of every `pub fn`."""
    for path in sources("src"):
        if not path.endswith(".rt"):
            continue
        code = text(path)
        for found in FUNCTION.finditer(code):
            body = re.search(r"^\s*\{\s*$", code[found.start():], re.M)
            yield path, found.group(1), code[found.start():found.start() + body.start()]


def each_has_a_statement():
    return [f"{path} {name}: no ensures" for path, name, head in public_functions() if "ensures" not in head]


def each_is_in_promises():
    """By its crate and name, and those of the C face by their name."""
    told, faults = text("docs/PROMISES.md"), []
    for path, name, _ in public_functions():
        crate = path.split("/")[1]
        named = rf"`{name}`" if crate == "fermion" else rf"`{crate}::(?:\w+::)?{name}\("
        faults += [] if re.search(named, told) else [f"{path} {name}"]
    return faults


def the_face_refuses_by_itself():
    return [f"{path} {name}: has a requires" for path, name, head in public_functions()
            if path.startswith("crates/fermion/") and "requires" in head]


def the_header_is_the_face():
    declared = set(re.findall(r"void (fermion_\w+)\(", text("include/fermion.h")))
    exported = {name for path, name, _ in public_functions() if path.startswith("crates/fermion/")}
    return [f"{name}: in the header or in the crate, and not in both" for name in sorted(declared ^ exported)]


def specs_hold_definitions_only():
    return [path for path in sources("specs") if path.endswith(".antt") and re.search(r"\brefl\b|\bomega\b|\brw \(", text(path))]


IMPORT = re.compile(r"^(?:ghost )?use Rattle\.(\w+)\.(specs|proofs)\.(\w+)\.\{([^}]*)\}", re.M)
DEFINITION = re.compile(r"^ *(?:(?:abbrev|unfoldable) (?:pub )?|pub (?:data|record) )(\S+) (?:.+\n)+", re.M)
INNER = "For inner functions only."


def imports(path):
    """Where each name that a file uses is defined: the file, and its name there."""
    names = {}
    for crate, kind, file, listed in IMPORT.findall(text(path)):
        for name in listed.split(","):
            there, _, here = name.strip().partition(" as ")
            names[(here or there).strip("◌")] = f"crates/{crate}/{kind}/{file}.antt", there.strip("◌")
    return names


def definitions(path):
    """The definitions of a file, each with its text, which ends at an empty line; none where there is no such file."""
    return {found.group(1).strip("◌"): found.group(0) for found in DEFINITION.finditer(text(path))} if os.path.exists(path) else {}


def pages():
    """The files of definitions."""
    return [path for path in sources("specs") if path.endswith(".antt") and not path.endswith("/Lib.antt")]


def words(code):
    """The words of a text, without the fields that it looks at."""
    return set(re.split(r"[\s(){};,⌜⌝«»]+", re.sub(r" ?\.[\w«»-]+", " ", code)))


def named_theorems():
    """(path, theorem) of those that PROMISES names with a crate and a file: `one`, `two` (crate, `File`). Definitions are named so too."""
    for names, crate, file in re.findall(r"((?:`[^`\s]+`(?:, | and )?)+) \((\w+), `(\w+)`\)", " ".join(text("docs/PROMISES.md").split())):
        for theorem in set(re.findall(r"`([^`]+)`", names)) - set(definitions(f"crates/{crate}/specs/{file}.antt")):
            yield f"crates/{crate}/proofs/{file}.antt", theorem


def statement(path, theorem):
    """What a theorem states: its type, and the heads of the modules that it stands in. Empty where it isn't there."""
    code = text(path) if os.path.exists(path) else ""
    found = re.search(rf"^( *)pub {re.escape(theorem)} :(?:.*\n)*?(?=\1(?:{re.escape(theorem)} |unfolding ))", code, re.M)
    if not found:
        return ""
    said, indent = found.group(0), len(found.group(1))
    for line in reversed(code[:found.start()].split("\n")):
        opened = re.match(r"( *)module _", line)
        if opened and len(opened.group(1)) < indent:
            said, indent = said + line, len(opened.group(1))
    return said


def theorems_are_where_the_page_says():
    named = list(named_theorems())
    return [f"{path}: no {theorem}" for path, theorem in named if not statement(path, theorem)] + ([] if named else ["none named"])


def reached():
    """The files with a definition that the promise of an entry point rests on, or a theorem that PROMISES names with its place."""
    headings = "".join(re.findall(r"^### .*$", text("docs/PROMISES.md"), re.M))
    said = [(path, head[head.index("ensures"):]) for path, name, head in public_functions()
            if path.startswith("crates/fermion/") or f"`{path.split('/')[1]}::{name}(" in headings]
    said += [(path, statement(path, theorem)) for path, theorem in named_theorems()]
    seen = set()
    while said:
        path, code = said.pop()
        here, used = definitions(path) if path.endswith(".antt") else {}, imports(path)
        for word in words(code):
            there, name = used.get(word, (path, word))
            known = here if there == path else definitions(there)
            for defined, body in known.items():
                if (there, defined) not in seen and (name == defined or name not in known and re.search(rf"^ +(?:pub )?{re.escape(name)} :", body, re.M)):
                    seen.add((there, defined))
                    said.append((there, body))
    return {path for path, _ in seen if "/specs/" in path}


def files_for_inner_functions_say_so():
    """Their first line is marked exactly if no entry point's promise and no theorem named with its place rests on them."""
    read = reached()
    return [f"{path}: {'marked, and reached' if path in read else 'not marked, and not reached'}" for path in pages()
            if (path in read) == text(path).split("\n")[0].endswith(INNER)]


def the_reading_list_is_whole():
    """The files that PROMISES tells to read, with their lines that are neither empty nor imports, and the totals."""
    listing = text("docs/PROMISES.md").split("\n## ")[1]
    faults, listed, total = [], set(), 0
    for row in re.findall(r"^\| .*\d \|$", listing, re.M):
        files = re.findall(r"`(\w+)/(\w+)` (\d+)", row)
        for crate, file, lines in files:
            path = f"crates/{crate}/specs/{file}.antt"
            listed.add(path)
            found = len([line for line in text(path).split("\n") if line and not line.startswith("use ")]) if os.path.exists(path) else None
            if found != int(lines):
                faults.append(f"{path}: {found} lines, not {lines}")
        said, sum_of = int(re.findall(r"(\d+)", row.replace(",", ""))[-1]), sum(int(lines) for _, _, lines in files)
        total += sum_of
        if said != (sum_of if files else total):
            faults.append(f"{row}: {sum_of if files else total} lines in all")
    unmarked = {path for path in pages() if INNER not in text(path)}
    return faults + [f"{path}: in the list or unmarked, and not both" for path in sorted(listed ^ unmarked)]


def definitions_are_where_the_page_says():
    """Rows of `names`, then crate and `files`: each name is defined in one of these files."""
    faults = []
    for names, crate, files in re.findall(r"^\| (`[^|]*`) \| (\w+), ((?:`\w+`(?:, )?)+) \|", text("docs/PROMISES.md"), re.M):
        known = {}
        for file in re.findall(r"`(\w+)`", files):
            known.update(definitions(f"crates/{crate}/specs/{file}.antt"))
        faults += [f"{name} is not in {crate}, {files}" for name in re.findall(r"`([^`\s]+)[^`]*`", names) if name not in known]
    return faults


def edits_say_what_they_are():
    return [path for path in glob.glob("crates/*/must-fail/*.edit") if text(path).startswith(("file:", "old:", "new:"))]


def nothing_is_left_lying_in_the_root():
    known = {".ci", ".gitignore", "LICENSE", "NOTICE", "README.md", "bench", "bindings", "crates", "crates.txt", "docs", "examples",
             "include", "oracle", "tests", "tools"}
    listed = subprocess.run(["git", "ls-files"], capture_output=True, text=True).stdout.split("\n")
    return sorted({path.split("/")[0] for path in listed if path} - known)


def the_readme_names_the_toolchain():
    version = subprocess.run(["rt", "version"], capture_output=True, text=True).stdout.strip()
    return [] if version and version in text("README.md") else [f"README.md does not have {version!r}"]


def the_readme_names_every_crate():
    return [path for path in sorted(glob.glob("crates/*")) if f"\n| `{path}` |" not in text("README.md")]


def the_readme_shows_what_its_commands_print():
    """A block of commands that begins so is run as it stands, and the block after it is the end of what it prints. The programs
    are those that `rt ci` left."""
    begins = "for line in '1 0^ 1_' '1 1^ 0_'; do", "PYTHONPATH=bindings/python python3 -c "
    blocks = [textwrap.dedent(block) for block in re.findall(r"(?:^    .*\n)+", text("README.md"), re.M)]
    faults, ran = [], 0
    for command, shown in zip(blocks, blocks[1:]):
        if command.startswith(begins):
            run = subprocess.run(["bash", "-c", command], capture_output=True, text=True)
            ran += 1
            if not run.stdout.endswith(shown):
                faults.append(f"{command}prints {(run.stdout + run.stderr)[-400:]!r}, not {shown!r}")
    return faults if ran == len(begins) else [*faults, f"{ran} commands found, not {len(begins)}"]


def what_documents_once_said_wrongly_is_right():
    """Sentences that were untrue or unclear, each with what must stand in its place."""
    right = [
        ("README.md", r"`oracle/` \|[^|]*sources are not in the repository"),
        ("README.md", r"`shared_object.sh`, the library for C, Rust and Python"),
        ("README.md", r"\n## Licence\n\nApache License 2\.0"),
        ("LICENSE", r"^\s*Apache License\n\s*Version 2\.0"),
        ("include/fermion.h", r"archive libfermion\.a, both for x86-64 alone"),
        ("docs/RECORD.md", r"\| 1 \| [^|]*1 to 64[^|]*at most 2,048[^|]*\|"),
        ("docs/RECORD.md", r"def write\(m, terms\):  # terms: \(creation word, annihilation word, coefficient\)"),
        ("docs/INSTALL.md", r"2\^24 = 16,777,216 bytes that nobody asked for"),
    ]
    return [f"{path}: no {pattern!r}" for path, pattern in right if not re.search(pattern.replace(" ", r"\s+"), text(path))]


def links_lead_somewhere():
    """Links of the documents to files of the repository, and to headings in them."""
    faults = []
    for path in ["README.md", *glob.glob("docs/*.md"), *glob.glob("bindings/*/README.md"), *glob.glob("examples/**/*.md", recursive=True)]:
        for link in re.findall(r"\]\(([^)\s]+)\)", text(path)):
            target, _, heading = link.partition("#")
            there = os.path.normpath(os.path.join(os.path.dirname(path), target)) if target else path
            if "://" in link:
                continue
            if not os.path.exists(there):
                faults.append(f"{path}: {link}")
            elif heading and heading not in [anchor(line) for line in re.findall(r"^#+ (.*)$", text(there), re.M)]:
                faults.append(f"{path}: {link}: no such heading")
    return faults


def anchor(heading):
    """What a heading is linked by."""
    return re.sub(r"[^\w\- ]", "", heading.lower()).replace(" ", "-")


def layout_is_the_formatters():
    """`rt fmt` changes nothing in a copy of the crates."""
    faults = []
    with tempfile.TemporaryDirectory() as copy:
        shutil.copy("crates.txt", copy)
        shutil.copytree("crates", os.path.join(copy, "crates"), ignore=shutil.ignore_patterns("out"))
        for crate in sorted(glob.glob("crates/*")):
            run = subprocess.run(["rt", "fmt"], cwd=os.path.join(copy, crate), capture_output=True, text=True)
            faults += [] if run.returncode == 0 else [f"{crate}: {run.stdout}{run.stderr}"]
        for path in sorted(path for kind in ("src", "specs", "proofs") for path in sources(kind) if os.path.isfile(path)):
            faults += [] if text(path) == text(os.path.join(copy, path)) else [f"{path}: rt fmt lays it out otherwise"]
    return faults


TESTS = [
    each_has_a_statement, each_is_in_promises, the_face_refuses_by_itself, the_header_is_the_face,
    specs_hold_definitions_only, files_for_inner_functions_say_so, the_reading_list_is_whole,
    definitions_are_where_the_page_says, theorems_are_where_the_page_says, edits_say_what_they_are, nothing_is_left_lying_in_the_root,
    the_readme_names_the_toolchain, the_readme_names_every_crate,
    the_readme_shows_what_its_commands_print, what_documents_once_said_wrongly_is_right, links_lead_somewhere,
    layout_is_the_formatters,
]


def main():
    failed = 0
    for test in TESTS:
        faults = test()
        failed += bool(faults)
        print(f"{test.__name__.replace('_', ' ')}: {'ok' if not faults else 'NOT SO'}")
        for fault in faults:
            print(f"  {fault}")
    print(f"{len(TESTS) - failed} passed, {failed} failed")
    raise SystemExit(1 if failed else 0)


main()
