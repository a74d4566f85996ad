"""Edits the text of a module of the toolchain's for WebAssembly of 32 bits.

The toolchain lays all out for addresses of eight bytes. Here a pointer has four where it is a value, and keeps its eight where
it lies in memory: what is stored is a number of 64 bits. So no place moves, and no other number changes. What is not
known here is no module that is built: `Unknown` says which line.
"""

import re

LAYOUT = "e-m:e-p:32:32-p10:8:8-p20:8:8-i64:64-i128:128-n32:64-S128-ni:1:10:20"
TARGET = "wasm32-unknown-unknown"
# What only another machine knows of a function.
OF_MACHINE = re.compile(r'"(probe-stack|stack-probe-size|target-cpu|target-features|rattle-sig|frame-pointer)"="[^"]*"')
STORE = re.compile(r"(\s+)store ptr (\S+), ptr (\S+), align (\d+)(.*)$")
LOAD = re.compile(r"(\s+)(%\S+) = load ptr, ptr (\S+), align (\d+)(.*)$")
LOAD_PAIR = re.compile(r"(\s+)(%\S+) = load \{ (\w+), (\w+) \}, ptr (\S+), align (\d+)(.*)$")
ACCESS = re.compile(r"\s+(?:%\S+ = )?(?:load|store) (.*), ptr ")
FUNCTION = re.compile(r'define internal .*?@"(\w+)::.*\) (?:noinline )?(?=#\d+ \{$)')
OPENS, CLOSES = "([{<", ")]}>"


class Unknown(Exception):
    """A line of a form that is not known."""


def edited(lines, crate, calls, small):
    """The lines of a module's text, edited; these functions of this crate are what it gives to others, and those of the crates
    `small` are to be short, and not fast."""
    names = {f'@"{crate}::{it}"': f"@{it}" for it in calls}
    count = 0
    for line in lines:
        count += 1
        if line.startswith("target datalayout"):
            yield f'target datalayout = "{LAYOUT}"'
            continue
        if line.startswith("target triple"):
            yield f'target triple = "{TARGET}"'
            continue
        if line.startswith("attributes #"):
            yield re.sub(r"\{\s*\}", "{ nounwind }", OF_MACHINE.sub("", line))
            continue
        yield from in_memory(shortened(renamed(line, names), small), count)


def renamed(line, names):
    """A line in which what is given to others has its plain name, and the trial's beginning none that a linker knows."""
    if line.startswith("define i32 @main("):
        return line.replace("@main(", "@trial_main(", 1)
    for name, plain in names.items():
        if name in line:
            if line.startswith("define internal "):
                line = line.replace("define internal ", "define dso_local ", 1)
            line = line.replace(name, plain)
    return line


def shortened(line, small):
    """A line that asks for a short function, where it begins one of these crates."""
    found = FUNCTION.match(line)
    if not found or found[1] not in small:
        return line
    return f"{line[:found.end()]}minsize optsize {line[found.end():]}"


def in_memory(line, count):
    """A line's own lines, in which each pointer in memory is a number of 64 bits; they name what they make by the count."""
    if line.startswith("@") and "<{" in line and "ptr" in line:
        return [constant(line)]
    if " alloca ptr" in line:
        return [line.replace("alloca ptr", "alloca i64")]
    if "ptrtoaddr" in line:
        line = line.replace("ptrtoaddr", "ptrtoint")
    if found := STORE.match(line):
        space, value, place, align, rest = found.groups()
        return [
            f"{space}%wide{count} = ptrtoint ptr {value} to i64",
            f"{space}store i64 %wide{count}, ptr {place}, align {align}{rest}",
        ]
    if found := LOAD.match(line):
        space, result, place, align, rest = found.groups()
        return [
            f"{space}%wide{count} = load i64, ptr {place}, align {align}{rest}",
            f"{space}{result} = inttoptr i64 %wide{count} to ptr",
        ]
    found = LOAD_PAIR.match(line)
    if found and "ptr" in found.group(3, 4):
        return pair(count, *found.groups()[:5])
    found = ACCESS.match(line)
    # (What stands in brackets is a constant's own making.)
    if found and re.search(r"\bptr\b", re.sub(r"\([^()]*\)", "", found[1])):
        raise Unknown(f"a pointer goes to memory in a form that is not known: {line.strip()[:160]}")
    return [line]


def pair(count, space, result, one, two, place):
    """The lines for a load of two values that lie one behind the other."""
    name = f"%wide{count}"
    lines = [f"{space}{name}place = getelementptr i8, ptr {place}, i64 8"]
    for number, (kind, at) in enumerate(((one, place), (two, f"{name}place"))):
        if kind == "ptr":
            lines.append(f"{space}{name}number{number} = load i64, ptr {at}, align 8")
            lines.append(f"{space}{name}value{number} = inttoptr i64 {name}number{number} to ptr")
        else:
            lines.append(f"{space}{name}value{number} = load {kind}, ptr {at}")
    lines.append(f"{space}{name}half = insertvalue {{ {one}, {two} }} poison, {one} {name}value0, 0")
    lines.append(f"{space}{result} = insertvalue {{ {one}, {two} }} {name}half, {two} {name}value1, 1")
    return lines


def constant(line):
    """A constant in which four bytes of zeros stand behind each pointer."""
    begin, end = line.index("<{"), line.index("}>")
    kinds = re.sub(r"\bptr\b(?=[, ])", "ptr, [4 x i8]", line[begin:end])
    rest = line[end:]
    if "<{" not in rest:
        return line[:begin] + kinds + rest
    first, last = rest.index("<{") + 2, rest.rindex("}>")
    values = [it + (", [4 x i8] zeroinitializer" if it.strip().startswith("ptr ") else "") for it in parts(rest[first:last])]
    return line[:begin] + kinds + rest[:first] + ",".join(values) + rest[last:]


def parts(text):
    """The parts of a text between commas that stand in no bracket and no string."""
    found, part, depth, is_quoted = [], "", 0, False
    for it in text:
        if it == '"':
            is_quoted = not is_quoted
        elif not is_quoted:
            depth += (it in OPENS) - (it in CLOSES)
        if it == "," and depth == 0 and not is_quoted:
            found.append(part)
            part = ""
        else:
            part += it
    return [*found, part]
