#!/usr/bin/env python3
"""Every example runs to its end with status 0, with a record that ships on its standard input; the energies that they print
are those of the package that made the files; what they cannot do they say in a sentence, with a status and no traceback."""
import _ctypes
import glob
import os
import re
import shutil
import subprocess
import sys
import tempfile

import face

EXAMPLES = os.path.join(face.ROOT, "examples")
MOLECULES = os.path.join(EXAMPLES, "molecules")
PACKAGE = os.path.join(face.ROOT, "bindings", "python")
MOST = 300  # seconds for one run

# By Psi4 1.3.2, in hartree: the Hartree-Fock energy and that of full configuration interaction; then the determinants, which
# are (6 over 2)^2 and (7 over 5)^2, and the modes, two for each orbital.
KNOWN = {
    "lih.fcidump": ("-7.862026959371", "-7.882403410324", 225, 12),
    "h2o.fcidump": ("-74.962928246499", "-75.012403658956", 441, 14),
}
CLOSE = 1e-9
OTHER = os.path.join(EXAMPLES, "example.c")  # a file that no program asks for


def run(program, *args, python=(sys.executable,), **changed):
    """A run of an example, the environment changed by these names; None takes a name away."""
    env = {**os.environ, "PYTHONPATH": PACKAGE, **changed}
    env = {name: value for name, value in env.items() if value is not None}
    with open(OTHER, "rb") as unasked:
        return subprocess.run([*python, program, *args], stdin=unasked, capture_output=True, text=True, timeout=MOST, env=env)


def example(name):
    return os.path.join(EXAMPLES, name)


def text(*path):
    with open(os.path.join(*path), encoding="ascii") as file:
        return file.read()


def shown(ran):
    return "".join(f"  {line}\n" for line in (ran.stdout + ran.stderr).splitlines())


# What runs to its end


def check_all(tally):
    """Each example: status 0. Gives the output of molecule.py."""
    printed = {}
    for path in sorted(glob.glob(example("*.py"))):
        name = os.path.basename(path)
        ran = run(path)
        print(f"examples/{name}: {'ok' if ran.returncode == 0 else f'status {ran.returncode}'}\n{shown(ran)}", end="")
        tally.same(f"examples/{name} runs to its end", ran.returncode, 0, name)
        printed[name] = ran.stdout
    return printed["molecule.py"]


def by_molecule(printed):
    """The lines that are told of each file."""
    parts = re.split(r"^(\S+\.fcidump):", printed, flags=re.M)
    return dict(zip(parts[1::2], parts[2::2]))


def check_energies(tally, printed):
    """The energies in the output beside those known, and the exact statements."""
    told = by_molecule(printed)
    tally.same("molecule.py tells of both molecules", set(told), set(KNOWN), "its output")
    for name, (scf, full, determinants, modes) in KNOWN.items():
        lines = told.get(name, "")
        for what, known, verdict in (("lowest determinant", scf, "the SCF determinant"), ("full CI", full, "as known")):
            tally.same(f"{name}: {what} as by Psi4", told_energy(lines, what, float(known)), (True, verdict), lines)
        wanted = (f"{determinants} determinants", f"terms on {modes} modes", "Hermitian: True", "[H, N] has no terms",
                  "[H, 2 Sz] has no terms", "[H, 4 S2] has no terms")
        tally.same(f"{name}: what is told exactly", [each for each in wanted if each not in lines], [], lines)
        stored = [text(MOLECULES, file) for file in ("energies.txt", "README.md")]
        tally.same(f"{name}: the energies stored", [scf in each and full in each for each in stored], [True, True], name)


def told_energy(lines, what, known):
    """Whether the one line about an energy has the known one, and what that line says at its end."""
    found = re.findall(rf"^  {what}: (-?\d+\.\d{{12}}) hartree.*[:,] (.*)$", lines, re.M)
    near = len(found) == 1 and abs(float(found[0][0]) - known) <= CLOSE
    return near, found[0][1] if found else None


# Two sites: one orbital each, two electrons, which hop with -t and repel each other by U on one site


def two_sites(*integrals):
    return "&FCI NORB=2,NELEC=2,MS2=0 /\n" + "".join(f"{line}\n" for line in integrals) + "0.0 0 0 0 0\n"


def hubbard(repulsion):
    return two_sites(f"{repulsion} 1 1 1 1", f"{repulsion} 2 2 2 2", "-1.0 1 2 0 0")


# (what it is, the file, the lowest state). A determinant with the electrons on two sites has the energy 0, and hopping leads
# to the two with both on one site: the lowest state has (U - sqrt(U^2 + 16)) / 2, which is 2 - sqrt 8 for U = 4, and -2 for
# U = 0. For U = 2,000,000 it is -4 / U, up to 1 / U^3.
SITES = (
    ("U = 4", hubbard("4.0"), -0.828427124746),
    ("no element on the diagonal", two_sites("-1.0 1 2 0 0"), -2.0),
    ("no element at all", two_sites(), 0.0),
    ("U = 2,000,000", hubbard("2000000.0"), -0.000002),
)


def check_sites(tally, folder):
    """Determinants whose energy is zero: the lowest one of each file here."""
    for what, content, full in SITES:
        ran = run(example("molecule.py"), write(folder, "sites.fcidump", content))
        print(f"  two sites, {what}:\n{shown(ran)}", end="")
        told = ran.returncode, told_energy(ran.stdout, "lowest determinant", 0.0), told_energy(ran.stdout, "full CI", full)
        tally.same(f"two sites, {what}", told, (0, (True, "no SCF energy known"), (True, "none known")), shown(ran))


def check_scf(tally, folder):
    """An SCF energy that is not the lowest determinant's changes the word, and not the status."""
    path = write(folder, "sites.fcidump", hubbard("4.0"))
    for scf, word in (("1.0", "below SCF"), ("-0.5", "above SCF"), ("0.0", "the SCF determinant"),
                      ("5e-10", "the SCF determinant"), ("2e-9", "below SCF"), ("nan", "no SCF energy known")):
        write(folder, "energies.txt", f"sites.fcidump 0.0 {scf} -0.828427124746\n")
        ran = run(example("molecule.py"), path)
        told = ran.returncode, told_energy(ran.stdout, "lowest determinant", 0.0)[1], "full CI" in ran.stdout
        tally.same(f"an SCF energy of {scf} beside a determinant of 0", told, (0, word, True), shown(ran))


def check_scales(tally, folder):
    """Hamiltonians without weight and with much: the scale is lowered as far as it helps, and a sentence says the rest."""
    light = {"all zero": two_sites(), "all tiny": two_sites("1e-12 1 1 1 1", "1e-12 1 2 0 0")}
    for what, content in light.items():
        ran = run(example("fcidump.py"), write(folder, "light.fcidump", content))
        tally.same(f"integrals {what}", (ran.returncode, ran.stderr, "  no terms" in ran.stdout), (0, "", True), shown(ran))
    ran = run(example("fcidump.py"), write(folder, "heavy.fcidump", hubbard("2E10")))  # two times U, four times t
    told = "6 terms on 4 modes, weight 40000000004.000000 hartree" in ran.stdout
    tally.same("a heavy Hamiltonian", (ran.returncode, told), (0, True), shown(ran))
    for repulsion in ("1E18", "1E300"):  # 2 U is above 2^60 at the scale 1; the second is above all floats at 10^12
        path = write(folder, "heavy.fcidump", hubbard(repulsion))
        for program in ("fcidump.py", "molecule.py"):
            ran = run(example(program), path)
            last = ran.stderr.splitlines()[-1:]
            told = len(last) == 1 and last[0].startswith(f"{path}: ") and "too heavy" in last[0]
            tally.same(f"{program}, a Hamiltonian too heavy for every scale",
                       (ran.returncode, told, "Traceback" in ran.stderr), (2, True, False), shown(ran))


def check_help(tally, _):
    """What a program is for, also where there is no library."""
    for program, words in (("molecule.py", "full configuration interaction"), ("fcidump.py", "the integrals of a molecule")):
        for asked in (["--help"], ["-h"], ["none.fcidump", "--help"]):
            ran = run(example(program), *asked, FERMION_LIB=OTHER)
            told = ran.returncode, ran.stderr, words in ran.stdout, f"examples/{program} [FILE..]" in ran.stdout
            tally.same(f"{program} asked for help", told, (0, "", True, True), shown(ran))


# What is not as known


def check_status_1(tally, folder):
    """An energy that is not the known one: status 1. The file of LiH, with another reference, and with another integral."""
    reference, lines = text(MOLECULES, "energies.txt"), text(MOLECULES, "lih.fcidump")
    full = KNOWN["lih.fcidump"][1]
    nearby = {"5e-10 hartree off": (f"{float(full) + 5e-10:.12f}", 0), "2e-9 hartree off": (f"{float(full) + 2e-9:.12f}", 1)}
    for what, (other, status) in nearby.items():
        write(folder, "energies.txt", reference.replace(full, other))
        ran = run(example("molecule.py"), write(folder, "lih.fcidump", lines))
        tally.same(f"a reference {what}", (ran.returncode, "NOT as known" in ran.stdout), (status, status == 1), shown(ran))
    write(folder, "energies.txt", reference)
    altered = lines.replace("-1.13627699930074266277E+00    5    5", "-1.13627799930074266277E+00    5    5")
    ran = run(example("molecule.py"), write(folder, "lih.fcidump", altered))
    tally.same("an integral changed in its sixth digit", (ran.returncode, "NOT as known" in ran.stdout, altered != lines),
               (1, True, True), shown(ran))


# Files that are damaged


def write(folder, name, content):
    path = os.path.join(folder, name)
    with open(path, "w", encoding="latin-1") as file:
        file.write(content)
    return path


def damaged(sound):
    """(what it is, the content, what the sentence has to say) of files that are not sound."""
    lines = sound.splitlines(keepends=True)
    first = sound.index("&END\n") + 5

    def with_line(number, line):
        return "".join(lines[:number - 1] + [line + "\n"] + lines[number:])

    assert lines[8].split()[1:] == ["1", "1", "1", "1"] and lines[9].split()[1:] == ["1", "1", "2", "1"]
    again = next(i for i, line in enumerate(lines) if line.split()[1:] == ["2", "1", "1", "1"])
    yield "nothing", "", "line 1"
    yield "other bytes", "\x00\x93\xff\n" * 5, "line 1"
    yield "without its header", sound[first:], "line 1:"
    yield "blank lines alone", "\n \n", "line 1:"
    yield "blank lines and no header", "\n \n" + sound[first:], "line 3:"
    yield "the header alone", sound[:first], "line 8"
    yield "the header without an end", sound.replace("&END", ""), "no end"
    yield "no number of electrons", sound.replace("NELEC=4,", ""), "NELEC"
    yield "an orbital and a half", sound.replace("NORB=6", "NORB=1.5"), "line 2"
    yield "a million orbitals", sound.replace("NORB=6", "NORB=1000000"), "line 2"
    yield "two numbers of orbitals", sound.replace("NELEC=4", "NELEC=4,NORB=6"), "line 3"
    yield "13 electrons in 6 orbitals", sound.replace("NELEC=4", "NELEC=13"), "NELEC 13"
    yield "an odd electron without a spin", sound.replace("NELEC=4", "NELEC=3"), "NELEC 3"
    yield "a symmetry too few", sound.replace("ORBSYM=1,", "ORBSYM="), "line 6"
    yield "a symmetry of 9", sound.replace("ORBSYM=1,", "ORBSYM=9,"), "line 6"
    yield "a repeat too long", sound.replace("ORBSYM=1,", "ORBSYM=2*1,"), "line 6"
    yield "a repeat of nothing", sound.replace("ORBSYM=1,", "ORBSYM=1*,"), "line 6"
    yield "no repeats", sound.replace("ORBSYM=1,", "ORBSYM=0*7,1,"), "line 6"
    yield "a thousand million repeats", sound.replace("ORBSYM=1,", "ORBSYM=999999999*1,"), "line 6"
    yield "orbitals for each spin", sound.replace("UHF=.FALSE.", "UHF=.TRUE."), "line 5"
    yield "the last line missing", "".join(lines[:-1]), f"line {len(lines) - 1}"
    yield "cut within a line", "".join(lines[:40]) + lines[40][:36], "line 41"
    yield "cut within a number", "".join(lines[:40]) + lines[40][:12], "line 41"
    yield "a letter in a number", with_line(9, "1.65855I20537784572754E+00 1 1 1 1"), "line 9"
    yield "not a number", with_line(9, "nan 1 1 1 1"), "line 9"
    yield "too large a number", with_line(9, "1E999 1 1 1 1"), "line 9"
    yield "an index above NORB", with_line(9, "1.6 1 1 1 7"), "line 9"
    yield "an index below 0", with_line(9, "1.6 1 1 1 -1"), "line 9"
    yield "three indices", with_line(9, "1.6 1 1 1"), "line 9"
    yield "three indices and a 0", with_line(9, "1.6 1 1 1 0"), "line 9"
    yield "an integral that symmetry makes zero", with_line(9, "1.6 1 1 1 5"), "line 9"
    yield "the same integral with two values", with_line(again + 1, "0.25 2 1 1 1"), f"line {again + 1}"
    yield "two energies of the nuclei", sound + "0.5 0 0 0 0\n", f"line {len(lines) + 1}"


def said(ran, *words):
    """Whether a run ended with status 2, and one line on the error output that has these words."""
    return ran.returncode == 2 and len(ran.stderr.splitlines()) == 1 and all(word in ran.stderr for word in words)


def check_damaged(tally, folder):
    sound = text(MOLECULES, "lih.fcidump")
    for what, content, word in damaged(sound):
        ran = run(example("molecule.py"), write(folder, "damaged.fcidump", content))
        print(f"  {what}: {ran.stderr.strip().replace(folder + os.sep, '')}")
        tally.same(f"a damaged FCIDUMP: {what}", said(ran, "damaged.fcidump, line", word), True, shown(ran))
    for program in ("molecule.py", "fcidump.py"):
        for what, path in (("no such file", os.path.join(folder, "none.fcidump")), ("a folder", folder)):
            ran = run(example(program), path)
            tally.same(f"{program}, {what}", said(ran, path), True, shown(ran))


# A library or a package that is not there


def check_missing(tally, folder):
    """The library not built, with and without `rt` on the path; and no package at all."""
    os.makedirs(os.path.join(folder, "bindings"))
    for part in ("examples", os.path.join("bindings", "python")):
        shutil.copytree(os.path.join(face.ROOT, part), os.path.join(folder, part),
                        ignore=shutil.ignore_patterns("*.so*", "__pycache__"))
    no_rt = os.path.join(folder, "no_rt")
    for name in ("hydrogen.py", "fcidump.py", "molecule.py"):
        program = os.path.join(folder, "examples", name)
        changed = {"FERMION_LIB": None, "PYTHONPATH": os.path.join(folder, "bindings", "python")}
        ran = run(program, **changed)
        print(f"  {name}, no library: {ran.stderr.strip()}")
        tally.same(f"{name} without a library", said(ran, "tools/shared_object.sh"), True, shown(ran))
        ran = run(program, PATH=no_rt, **changed)
        print(f"  {name}, no library and no rt: {ran.stderr.strip()}")
        told = said(ran, "tools/shared_object.sh", "rt, which is not")
        tally.same(f"{name} without a library and rt", told, True, shown(ran))
    for what, path in (("not a library", OTHER), ("another library", _ctypes.__file__)):
        ran = run(example("hydrogen.py"), FERMION_LIB=path)
        print(f"  hydrogen.py, {what}: {ran.stderr.strip()}")
        tally.same(f"hydrogen.py with {what}", said(ran, path), True, shown(ran))
    shutil.rmtree(os.path.join(folder, "bindings"))
    ran = run(os.path.join(folder, "examples", "hydrogen.py"), python=(sys.executable, "-S", "-E"))
    print(f"  hydrogen.py, no package: {ran.stderr.strip()}")
    tally.same("hydrogen.py without the package", said(ran, "bindings/python"), True, shown(ran))


def main():
    tally = face.Tally()
    check_energies(tally, check_all(tally))
    for check in (check_sites, check_scf, check_scales, check_help, check_status_1, check_damaged, check_missing):
        with tempfile.TemporaryDirectory() as folder:
            check(tally, folder)
    tally.close()


main()
