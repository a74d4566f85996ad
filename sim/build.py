"""Builds the library of a simulated world from the crates, with no proof: an object that `rustc` links.

It takes the module of `library/main.rt.in` over the crates that `rt try` hands to its compiler, as `.ci/unproved`
takes that of `warpd`, and has its calls seen from outside.
"""

import hashlib
import importlib.machinery
import importlib.util
import re
import shutil
import sys
import tempfile
from pathlib import Path

HERE = Path(__file__).resolve().parent
ROOT = HERE.parent
sys.dont_write_bytecode = True

LOADER = importlib.machinery.SourceFileLoader("unproved", str(ROOT / ".ci" / "unproved"))
unproved = importlib.util.module_from_spec(importlib.util.spec_from_loader("unproved", LOADER))
LOADER.exec_module(unproved)

NAME = "warp_simulated"
# The libraries that the calls name, as a line of crates.txt.
USES = """warp_machine warp_host warp_events warp_push warp_pages warp_disk warp_journal warp_clients warp_service warp_prog
warp_run warp_clock warp_replica warp_trace warp_room warp_watch warp_hub warp_web warp_record warp_line warp_step warp_tag arrayvec libc
mio os rtrb thiserror""".split()
LEAST = 300_000
# What is built stays here, by a sum of what it is built from.
KEPT = ROOT / "out" / "sim"
# So the names of what is no other crate's begin in its module.
OWN = f'@"{NAME}::'
CALL = re.compile(r'pub extern "C" fn (\w+)\(')


def lay(room, edits=(), behind=""):
    """Lays the crates into a folder, with these edits, a text behind each file that they touch, and the calls beside them."""
    unproved.lay(room)
    for file in sorted({it for it, _, _ in edits}):
        path = room / file
        path.write_text(edited(path.read_text(), [(old, new) for it, old, new in edits if it == file], file) + behind)
    folder = room / "crates" / NAME / "src"
    folder.mkdir(parents=True)
    for file in sorted((HERE / "library").glob("*.rt.in")):
        shutil.copy2(file, folder / file.name.removesuffix(".in"))
    with open(room / "crates.txt", "a") as lines:
        lines.write(f"{NAME}: {' '.join(USES)}\n")


def seen(line, calls):
    """A line in which the calls have their plain names, seen from outside, and the trial's beginning has another."""
    if line.startswith("define i32 @main("):
        return line.replace("@main(", "@trial_main(", 1)
    if OWN not in line:
        return line
    for call, module in calls.items():
        name = f'@"{NAME}::{module}::{call}"'
        if name in line:
            if line.startswith("define internal "):
                line = line.replace("define internal ", "define dso_local ", 1)
            line = line.replace(name, f"@{call}")
    return line


def build(room, work, made):
    """Builds the object, from the sources in a room, into this file."""
    unproved.PROGRESS.begins("the simulated world: translating the sources (1 of 2)")
    module = unproved.taken(work, room, NAME, LEAST)
    unproved.PROGRESS.begins("the simulated world: optimising (2 of 2)")
    text, edited = work / "module.ll", work / "edited.ll"
    plain = "-S -emit-llvm -O0 -Xclang -disable-llvm-passes -x ir".split()
    unproved.run(unproved.CLANG, "--no-default-config", *plain, module, "-o", text)
    calls = {}
    for file, found in sources(HERE / "library", "*.rt.in"):
        calls.update({call: file.removesuffix(".rt.in") for call in CALL.findall(found.decode())})
    lines = unproved.cleaned(text.read_text().split("\n"), unproved.inlining(room))
    edited.write_text("\n".join(seen(line, calls) for line in lines))
    unproved.run(unproved.CLANG, *unproved.FLAGS, "-c", "-x", "ir", edited, "-o", made)
    unproved.PROGRESS.ends()


def sum_of(*parts):
    """A sum of these bytes and of what makes the library."""
    found = hashlib.sha256((unproved.KIT / "WHAT").read_bytes() + Path(__file__).read_bytes())
    found.update((ROOT / ".ci" / "unproved").read_bytes())
    for part in parts:
        found.update(repr(part).encode())
    return found.hexdigest()


def sources(folder, pattern):
    """The files of a folder that have such a name, with what they have."""
    return [(str(file.relative_to(folder)), file.read_bytes()) for file in sorted(folder.rglob(pattern))]


def below():
    """The crates on which the library stands."""
    lines = [line.partition("#")[0].partition(":") for line in (ROOT / "crates.txt").read_text().splitlines()]
    uses = {name.split()[0]: rest.split() for name, _, rest in lines if name.split()}
    found, left = set(), list(USES)
    while left:
        name = left.pop()
        if name in uses and name not in found:
            found.add(name)
            left += uses[name]
    return sorted(found)


def library(edits=(), behind=""):
    """The object with the calls, built where it is not there yet from the crates with these edits."""
    crates = [(name, sources(ROOT / "crates" / name / "src", "*.rt")) for name in below()]
    made = KEPT / sum_of(crates, sources(HERE / "library", "*"), edits, behind) / "library.o"
    if made.exists():
        return made
    unproved.look()
    unproved.PROGRESS.say("building the simulated world with no proof, once until a source changes")
    with tempfile.TemporaryDirectory(prefix="warpd-sim-", ignore_cleanup_errors=True) as folder:
        room, work = Path(folder, "room"), Path(folder, "work")
        room.mkdir()
        work.mkdir()
        lay(room, edits, behind)
        build(room, work, work / "library.o")
        made.parent.mkdir(parents=True, exist_ok=True)
        shutil.copy2(work / "library.o", made.with_suffix(".new"))
        made.with_suffix(".new").replace(made)
    return made


def edited(text, edits, file):
    """A text with these edits, each of which stands in it once."""
    for old, new in edits:
        if text.count(old) != 1:
            raise unproved.Unbuilt(f"{file} has the edit's text {text.count(old)} times:\n{old}")
        text = text.replace(old, new)
    return text


def simulation(edits=(), shell_edits=(), behind=""):
    """The program that runs worlds, built where it is not there yet from the crates and from `src`, with these edits."""
    linked = library(edits, behind)
    made = KEPT / sum_of(linked.parent.name, sources(HERE / "src", "*.rs"), shell_edits) / "simulation"
    if made.exists():
        return made
    with tempfile.TemporaryDirectory(prefix="warpd-sim-", ignore_cleanup_errors=True) as folder:
        shutil.copytree(HERE / "src", f"{folder}/src")
        for file in sorted({it for it, _, _ in shell_edits}):
            path = Path(folder, "src", file)
            path.write_text(edited(path.read_text(), [(old, new) for it, old, new in shell_edits if it == file], file))
        words = ["rustc", "--edition", "2024", "-O", "-C", "codegen-units=1", "-D", "warnings", "-o", f"{folder}/simulation", f"{folder}/src/main.rs"]
        said = unproved.call(*words, "-C", f"link-arg={linked}")
        if said.returncode:
            raise unproved.Unbuilt(said.stdout)
        made.parent.mkdir(parents=True, exist_ok=True)
        shutil.copy2(f"{folder}/simulation", made.with_suffix(".new"))
        made.with_suffix(".new").replace(made)
    return made


def told(*words):
    """The status of a command, and what it says."""
    said = unproved.call(*words)
    return said.returncode, said.stdout
