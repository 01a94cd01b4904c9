#!/usr/bin/env python3
"""The scripts of tools/, on what goes wrong around them: a build that fails, a tool that is not there, no argument. The
scripts run in a copy of a few files, with stand-ins for the toolchain and the compiler, so the library of this repository is
not touched."""
import glob
import hashlib
import os
import re
import shutil
import subprocess
import tempfile
import time

ROOT = os.path.dirname(os.path.dirname(os.path.abspath(__file__)))
OLD = b"a library that was built before"
COMMANDS = """bash sh env dirname basename realpath readlink mkdir sed cat sha256sum find sort head tail mktemp rm mv cp ln
    chmod flock grep tee touch sleep""".split()
# It runs in crates/fermion.
RT = """#!/bin/sh
[ "$1" = version ] && echo kit && exit
echo "$*" >>../../calls
mkdir -p out && echo an archive >out/libfermion.a
echo 'rt: modes proved'
"""
CALL = b"lib --cpu=x86-64\n"
RT_THAT_FAILS = RT + "echo 'rt: lent NOT PROVED'\nexit 1\n"
RT_THAT_WAITS = RT + "i=0\nwhile [ ! -f ../../go ]; do i=$((i + 1)); [ $i -le 200 ] || exit 1; sleep 0.1; done\n"
GCC = """#!/bin/sh
while [ "$1" != -o ]; do shift; done
printf 'a library' >"$2"
"""
RATTLE = """#!/bin/sh
echo "rattle $1 $3" >>../../calls
while [ "$1" != -o ]; do shift; done
echo an archive >"$2"
"""
GCC_THAT_FAILS = GCC + "echo 'ld: no room' >&2\nexit 1\n"


class Copy:
    """A folder with the scripts, one source file, a library built before, and a PATH of its own."""

    def __init__(self, **stand_ins):
        self.folder = tempfile.mkdtemp()
        self.root, self.path = os.path.join(self.folder, "a tree"), os.path.join(self.folder, "bin")
        self.library = os.path.join(self.root, "target", "native", "libfermion.so")
        shutil.copytree(os.path.join(ROOT, "tools"), os.path.join(self.root, "tools"))
        self.write("crates.txt", b"modes:\nfermion staticlib: modes\n")
        self.write("crates/modes/src/lib.rt", b"// a source below\n")
        self.write("crates/fermion/src/lib.rt", b"// a source\n")
        self.write("target/native/libfermion.so", OLD)
        os.mkdir(self.path)
        for name in COMMANDS:
            os.symlink(shutil.which(name), os.path.join(self.path, name))
        for name, text in stand_ins.items():
            with open(os.path.join(self.path, name), "w", encoding="utf-8") as file:
                file.write(text)
            os.chmod(os.path.join(self.path, name), 0o755)

    def __enter__(self):
        return self

    def __exit__(self, *_):
        shutil.rmtree(self.folder)

    def write(self, name, data):
        os.makedirs(os.path.dirname(os.path.join(self.root, name)), exist_ok=True)
        with open(os.path.join(self.root, name), "wb") as file:
            file.write(data)

    def read(self, name="target/native/libfermion.so"):
        try:
            with open(os.path.join(self.root, name), "rb") as file:
                return file.read()
        except FileNotFoundError:
            return None

    def start(self, *words, **environment):
        return subprocess.Popen([os.path.join(self.root, words[0]), *words[1:]], env={"PATH": self.path, **environment},
                                cwd=self.root, stdin=subprocess.DEVNULL, stdout=subprocess.PIPE, stderr=subprocess.PIPE, text=True)

    def run(self, *words, **environment):
        """Status, standard output, standard error."""
        run = self.start(*words, **environment)
        out, err = run.communicate(timeout=60)
        return run.returncode, out, err

    def beside(self):
        """The files in the library's folder but for the lock."""
        return sorted(name for name in os.listdir(os.path.dirname(self.library)) if not name.endswith(".lock"))


def expect(faults, good, what):
    if not good:
        faults.append(what)


def one_sentence(err, *names):
    """One line that has the names, and that no shell and no interpreter wrote."""
    foreign = re.search(r"Traceback|not found|unbound|line \d+:", err)
    return err.count("\n") == 1 and all(name in err for name in names) and not foreign


# tools/shared_object.sh

def a_build_that_fails_leaves_the_library(**stand_ins):
    faults, made_from = [], b"what it was made from\n"
    with Copy(**stand_ins) as copy:
        copy.write("target/native/libfermion.so.from", made_from)
        status, out, err = copy.run("tools/shared_object.sh")
        expect(faults, status != 0, f"status {status}")
        expect(faults, copy.read() == OLD, f"the library is {copy.read()!r}")
        expect(faults, copy.read("target/native/libfermion.so.from") == made_from, "what it was made from is another")
        expect(faults, copy.beside() == ["libfermion.so", "libfermion.so.from"], f"beside it: {copy.beside()}")
        expect(faults, not out, f"standard output: {out!r}")
        expect(faults, ("NOT PROVED" if "NOT" in stand_ins["rt"] else "no room") in err, f"standard error: {err!r}")
    return faults


def a_proof_that_fails_leaves_the_library():
    return a_build_that_fails_leaves_the_library(rt=RT_THAT_FAILS, gcc=GCC)


def a_link_that_fails_leaves_the_library():
    return a_build_that_fails_leaves_the_library(rt=RT, gcc=GCC_THAT_FAILS)


def a_build_replaces_the_library_and_says_which():
    faults = []
    with Copy(rt=RT, gcc=GCC) as copy:
        status, out, err = copy.run("tools/shared_object.sh")
        expect(faults, (status, copy.read()) == (0, b"a library"), f"{status}, the library is {copy.read()!r}: {err}")
        expect(faults, out == f"{copy.library}: x86-64, the archive's own code\n", f"standard output: {out!r}")
        files = ["libfermion.so", "libfermion.so.0", "libfermion.so.from"]
        expect(faults, copy.beside() == files, f"beside it: {copy.beside()}")
        expect(faults, copy.read("target/native/libfermion.so.0") == b"a library", "the name for the loader leads elsewhere")
    return faults


def what_is_built_is_not_built_again():
    faults = []
    with Copy(rt=RT, gcc=GCC) as copy:
        first, second = copy.run("tools/shared_object.sh"), copy.run("tools/shared_object.sh")
        expect(faults, first[0] == 0 and second[:2] == first[:2], f"{first} and then {second}")
        expect(faults, copy.read("calls") == CALL, f"calls of rt: {copy.read('calls')}")
        copy.write("crates/fermion/src/lib.rt", b"// another source\n")
        copy.run("tools/shared_object.sh")
        expect(faults, copy.read("calls") == 2 * CALL, "a changed source is not built")
    return faults


def what_rt_ci_has_proved_is_not_proved_again():
    """But for the crate fermion, and only where no file has changed and no library is older: in seconds after a start."""
    faults, over = [], b"rattle build fermion\n"
    times = {"as rt ci leaves it": ((-5, 5), over), "a source that changed": ((3, 5), CALL), "a library that was put back": ((-5, -3), CALL)}
    for what, ((source, library), calls) in times.items():
        with Copy(rt=RT, rattle=RATTLE, gcc=GCC) as copy:
            copy.write("begun", b"")
            copy.write("crates/modes/out/rlib/modes.rlib/format", b"")
            begun = os.stat(os.path.join(copy.root, "begun")).st_mtime
            for name, seconds in ("crates.txt", -5), ("crates/fermion/src", -5), ("crates/fermion/src/lib.rt", -5), ("crates/modes/src", -5), \
                    ("crates/modes/src/lib.rt", source), ("crates/modes/out/rlib", library):
                os.utime(os.path.join(copy.root, name), (begun + seconds,) * 2)
            status, out, err = copy.run("tools/shared_object.sh", PROVED_SINCE="begun")
            expect(faults, (status, copy.read()) == (0, b"a library"), f"{what}: {status}, the library is {copy.read()!r}: {err}")
            expect(faults, copy.read("calls") == calls, f"{what}: {copy.read('calls')}")
            expect(faults, out == f"{copy.library}: x86-64, the archive's own code\n", f"{what}: standard output: {out!r}")
    return faults


def nothing_is_a_link():
    """rt ci refuses a symbolic link anywhere in the repository."""
    with Copy(rt=RT, gcc=GCC) as copy:
        copy.run("tools/shared_object.sh")
        made = [os.path.join(at, name) for at, folders, files in os.walk(copy.root) for name in folders + files]
        return [path for path in made if os.path.islink(path)] + ([] if copy.library in made else ["nothing was made"])


def a_library_that_was_changed_is_built_again():
    faults = []
    with Copy(rt=RT, gcc=GCC) as copy:
        copy.run("tools/shared_object.sh")
        copy.write("target/native/libfermion.so", b"half a libr")
        status = copy.run("tools/shared_object.sh")[0]
        expect(faults, (status, copy.read()) == (0, b"a library"), f"status {status}, the library is {copy.read()!r}")
    return faults


def a_tree_that_was_moved_names_its_own_library():
    faults = []
    with Copy(rt=RT, gcc=GCC) as copy:
        copy.run("tools/shared_object.sh")
        os.rename(copy.root, copy.root + " moved")
        copy.root += " moved"
        status, out, _ = copy.run("tools/shared_object.sh")
        own = copy.root + "/target/native/libfermion.so: "
        expect(faults, status == 0 and out.startswith(own), f"standard output: {out!r}")
    return faults


def a_library_under_the_loaders_name_and_a_relative_path():
    """Seen from where one stands; and libfermion.so.0, the name of the link beside another, can be the library's own."""
    faults = []
    with Copy(rt=RT, gcc=GCC) as copy:
        made = subprocess.run([os.path.join(copy.root, "tools", "shared_object.sh"), "sub/libfermion.so.0"], cwd=copy.folder,
                              env={"PATH": copy.path}, capture_output=True, text=True, timeout=60)
        library = os.path.join(copy.folder, "sub", "libfermion.so.0")
        expect(faults, made.returncode == 0 and made.stdout.startswith(f"{library}: "), f"{made.stdout!r} {made.stderr!r}")
        expect(faults, os.path.isfile(library) and not os.path.islink(library), "it is no file")
        expect(faults, not os.path.exists(os.path.join(copy.root, "sub")), "it was put into the tree")
    return faults


def it_shows_what_it_does_while_it_does_it():
    """rt goes on only when its first line has been seen on standard error."""
    with Copy(rt=RT_THAT_WAITS, gcc=GCC) as copy:
        run, seen = copy.start("tools/shared_object.sh"), []
        for line in run.stderr:
            seen.append(line)
            if "modes proved" in line:
                copy.write("go", b"")
        run.stdout.read()
        status = run.wait()
    faults = []
    expect(faults, status == 0, f"rt waited in vain for its line to be seen; status {status}, seen: {seen}")
    expect(faults, "rt lib in crates/fermion" in seen[0] if seen else False, f"the first line does not say what is run: {seen}")
    return faults


def without_rt_a_sentence_says_so():
    faults = []
    for words in (["tools/shared_object.sh"], ["tools/run.sh", "commutator"], ["tools/install.sh", "there"]):
        with Copy(gcc=GCC) as copy:
            status, out, err = copy.run(*words)
            said = not out and one_sentence(err, "rt ", "PATH", "docs/INSTALL.md")
            expect(faults, status != 0 and said, f"{words}: {status} {out!r} {err!r}")
            expect(faults, copy.read() == OLD, f"{words}: the library is {copy.read()!r}")
            expect(faults, not os.path.exists(os.path.join(copy.root, "there")), "something was installed")
    return faults


def without_gcc_a_sentence_says_so():
    faults = []
    with Copy(rt=RT) as copy:
        status, out, err = copy.run("tools/shared_object.sh")
        expect(faults, status != 0 and not out and one_sentence(err, "gcc", "PATH"), f"{status} {out!r} {err!r}")
        expect(faults, (copy.read(), copy.read("calls")) == (OLD, None), "the library is gone, or rt was run in vain")
    return faults


# tools/run.sh and tools/install.sh

def without_an_argument_a_sentence_says_how():
    faults, run, install = [], "tools/run.sh", "tools/install.sh"
    for words in [run], [run, ""], [run, "", "b"], [install], [install, ""], [install, "a", "b"], [install, "--prefix=a"]:
        with Copy(rt=RT, gcc=GCC) as copy:
            status, out, err = copy.run(*words)
            said = not out and one_sentence(err, "usage: " + words[0])
            expect(faults, status != 0 and said, f"{words}: {status} {out!r} {err!r}")
            expect(faults, copy.read("calls") is None, f"{words}: rt was run")
    return faults


def help_is_given():
    faults = []
    for script in "tools/run.sh", "tools/install.sh", "tools/shared_object.sh":
        for word in "--help", "-h":
            with Copy() as copy:
                status, out, err = copy.run(script, word)
                expect(faults, status == 0 and script in out and not err, f"{script} {word}: {status} {out!r} {err!r}")
    return faults


def a_program_that_is_not_there():
    with Copy(rt=RT) as copy:
        status, out, err = copy.run("tools/run.sh", "commutator")
    return [] if status != 0 and not out and one_sentence(err, "'rt run' in crates/commutator") else [f"{status} {out!r} {err!r}"]


def the_arguments_are_the_programs():
    faults, program = [], "crates/program/out/program"
    for words in [], ["2"], ["a word", "", "*", "--help"]:
        with Copy() as copy:
            copy.write(program, b'#!/bin/sh\nprintf "%s|" "$0" "$@"\n')
            os.chmod(os.path.join(copy.root, program), 0o755)
            got = copy.run("tools/run.sh", "program", *words)
            expect(faults, got == (0, "|".join([os.path.join(copy.root, program), *words, ""]), ""), f"{words}: {got}")
    return faults


# all scripts

def every_script_can_be_read_by_its_shell():
    scripts = glob.glob(os.path.join(ROOT, "*", "*.sh")) + glob.glob(os.path.join(ROOT, ".ci", "run"))
    faults = [] if len(scripts) >= 8 else [f"only {scripts} were found"]
    for path in scripts:
        with open(path, encoding="utf-8") as file:
            shell = "bash" if "bash" in file.readline() else "sh"
        run = subprocess.run([shell, "-n", path], capture_output=True, text=True)
        expect(faults, run.returncode == 0, f"{path}: {run.stderr}")
        expect(faults, os.access(path, os.X_OK), f"{path}: has no run bit")
    return faults


def the_library_of_this_repository():
    path = os.path.join(ROOT, "target", "native", "libfermion.so")
    if not os.path.exists(path):
        return None
    with open(path, "rb") as file:
        return hashlib.sha256(file.read()).hexdigest()


def twins(*arguments):
    run = subprocess.run(["python3", f"{ROOT}/tools/twins.py", *arguments], cwd="/", capture_output=True, text=True)
    return run.returncode, run.stdout, run.stderr


def functions_alike_are_told_and_others_are_not():
    """Two functions that differ in names, a type and a number; one that names a thing twice where they name two; an empty file."""
    with tempfile.TemporaryDirectory() as top:
        for crate, text in (
            ("one", "fn first(a: u64, b: u64) -> u64\n    ensures { result ≡ a + b }\n{\n    a + b * 2\n}\n"),
            ("two", "// as before\npub fn second(x: u32, y: u32) -> u32 {\n    x + y * 7\n}\nfn third(x: u32, y: u32) -> u32 {\n    x + x * 7\n}\n"),
            ("three", ""),
        ):
            os.makedirs(f"{top}/crates/{crate}/src")
            with open(f"{top}/crates/{crate}/src/lib.rt", "w", encoding="utf-8") as file:
                file.write(text)
        told = twins("1", top)
        none = twins("2", top)
    wanted = (0, "one::first two::second\n1 groups of 2 functions\n", "")
    return [f"told {told}"] * (told != wanted) + [f"told {none}"] * (none != (0, "0 groups of 0 functions\n", ""))


def a_tree_without_crates_and_a_word_for_a_number_are_told():
    with tempfile.TemporaryDirectory() as top:
        empty = twins("1", top)
    word = twins("few")
    return [f"told {empty}"] * (empty != (1, "", f"tools/twins.py: {top} has no crates\n")) + [f"told {word}"] * (
        word[:2] != (1, "") or "[LINES [FOLDER]]" not in word[2]
    )


TESTS = [
    a_proof_that_fails_leaves_the_library, a_link_that_fails_leaves_the_library, a_build_replaces_the_library_and_says_which,
    what_is_built_is_not_built_again, what_rt_ci_has_proved_is_not_proved_again, nothing_is_a_link, a_library_that_was_changed_is_built_again, a_tree_that_was_moved_names_its_own_library,
    a_library_under_the_loaders_name_and_a_relative_path, it_shows_what_it_does_while_it_does_it, without_rt_a_sentence_says_so, without_gcc_a_sentence_says_so,
    without_an_argument_a_sentence_says_how, help_is_given, a_program_that_is_not_there, the_arguments_are_the_programs,
    every_script_can_be_read_by_its_shell, functions_alike_are_told_and_others_are_not,
    a_tree_without_crates_and_a_word_for_a_number_are_told,
]


def main():
    failed, before, start = 0, the_library_of_this_repository(), time.monotonic()
    for test in TESTS:
        faults = test()
        failed += bool(faults)
        print(f"{test.__name__.replace('_', ' ')}: {'ok' if not faults else 'NOT SO'}")
        for fault in faults:
            print(f"  {fault}")
    untouched = before == the_library_of_this_repository()
    print(f"the library of this repository was not touched: {'ok' if untouched else 'NOT SO'}")
    print(f"{time.monotonic() - start:.0f} seconds")
    failed += not untouched
    print(f"{len(TESTS) + 1 - failed} passed, {failed} failed")
    raise SystemExit(1 if failed else 0)


main()
