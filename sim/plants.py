"""Plants the faults of `planted.py`, and finds the first seed of each; or replays these seeds on the right code."""

import re
import sys
import time

import build
from planted import KEPT, LIBRARY, SHELL

# A fault is to be found within so many seeds.
MOST_SEEDS = 2_000
# So long they may take, in seconds: with a fault a world may never end.
MOST_SECONDS = 600
DECLARED = """
unsafe extern "C" {
    /// Whether the fault of this number is planted.
    safe fn world_planted(number: u32) -> u32;
}
"""
LIST = build.ROOT / "docs" / "assurance" / "WRONG_BODIES.md"
ROW = re.compile(r"^\| (\d+) \| [^|]+ \| (\d+) \|", re.MULTILINE)


def numbered():
    """The faults with their numbers, from 1; and whether each is one of the library."""
    places = [(LIBRARY, True), (SHELL, False), (KEPT, True)]
    return list(enumerate([(*it, is_library) for faults, is_library in places for it in faults], start=1))


def edits_of(is_library, asks):
    """The edits of these faults, where PLANTED is what asks for each."""
    found = []
    for number, (_, places, whose) in numbered():
        if whose == is_library:
            found += [(file, old, new.replace("PLANTED", asks.format(number))) for file, old, new in places]
    return found


def planted():
    """The program in which all faults are planted."""
    library = edits_of(True, "(world_planted({}) == 1)")
    shell = edits_of(False, "crate::library::is_planted({})")
    return build.simulation(tuple(library), tuple(shell), DECLARED)


def look(program, number, end):
    """Runs the first so many seeds with a fault: the status, and what is said."""
    words = ["--planted", str(number), "--seeds", f"0..{end}", "--first-failure", "--no-shrink"]
    return build.told("timeout", str(MOST_SECONDS), program, *words)


def find(program, number):
    """The first seed that finds a fault, and what it says; `None` where none does."""
    status, said = look(program, number, MOST_SEEDS)
    found = re.search(r"^seed (\d+) fails: (.*)$", said, re.MULTILINE)
    if found:
        return int(found[1]), found[2]
    if status in (0, 1):
        return None
    # It crashed, or did not end: the fewest seeds behind which it does so.
    passes, fails = 0, MOST_SEEDS
    while fails - passes > 1:
        middle = (passes + fails) // 2
        if look(program, number, middle)[0] in (0, 1):
            passes = middle
        else:
            fails = middle
    return passes, f"it ends with status {status}"


def find_all(numbers):
    """Finds the seed of each fault, and tells a table of them. What was told before of the same program is told again."""
    program = planted()
    rows = program.with_name("planted.rows")
    known = dict(re.findall(r"^(\| (\d+) \|.*)$", rows.read_text(), re.MULTILINE) if rows.exists() else [])
    known = {int(number): row for row, number in known.items()}
    found = count = 0
    for number, (name, _, _) in numbered():
        if numbers and number not in numbers:
            continue
        count += 1
        if number not in known:
            began = time.monotonic()
            seed = find(program, number)
            took = time.monotonic() - began
            known[number] = f"| {number} | {name} | {seed[0] if seed else 'none'} | {seed[1][:100] if seed else ''} | {took:.0f} s"
            with rows.open("a") as file:
                file.write(known[number] + "\n")
        found += "| none |" not in known[number]
        print(known[number], flush=True)
    print(f"{found} passed, {count - found} failed")
    return 0 if found == count else 1


def replay():
    """Replays the seeds of the list on the right code."""
    program = build.simulation()
    failed = 0
    seeds = sorted({int(seed) for _, seed in ROW.findall(LIST.read_text())})
    for seed in seeds:
        status, said = build.told(program, "--seed", str(seed))
        if status:
            failed += 1
            print(said)
    print(f"{len(seeds) - failed} passed, {failed} failed")
    return 1 if failed or not seeds else 0


def main(words):
    if words == ["--known"]:
        return replay()
    return find_all([int(word) for word in words])


if __name__ == "__main__":
    sys.exit(main(sys.argv[1:]))
