"""Runs real editors in batch over the files of `clients/editors`, and tries the grammar of Visual Studio Code beside
the compiler's own words."""

import json
import os
import re
import shutil
import subprocess
from pathlib import Path

from warpd.language.lexing import Lexer
from warpd.language.tables import grammar
from warpd.language.testing.words import collapsed
from warpd.language.words import in_place

ROOT = Path(__file__).resolve().parent.parent
EDITORS = ROOT / "clients" / "editors"
TESTS, VSCODE = EDITORS / "tests", EDITORS / "vscode"
SECONDS = 120
TEXT = """target warpd { stop: 60 }
reactor Player {
  state lives: int = 3;
  input hit: int;
  reaction(hit) {= live -= hit; =}
}
main reactor { p1 = new Player(); @origin(0) input p1.hit; }
test "a" { p1.hit = 1 at 3; expect p1.lives == 2; }
"""
RENAMED = "renamed   state hearts: int = 3;   reaction(hit) {= hearts -= hit; =}"
# What Visual Studio Code calls a word of each kind; a kind that is not named here is a word of the language.
SCOPES = {
    "NAME": r"(entity|variable|support|constant|keyword\.other)\.", "NUMBER": r"constant\.numeric\.lf",
    "TIME": r"constant\.numeric\.time", "STRING": r"string\.", "ATTRIBUTE": r"entity\.name\.function\.decorator",
    "BODY": r"punctuation\.section\.embedded", "SIGN": r"(keyword\.operator|punctuation)",
    "WORD": r"(storage|keyword|constant\.language)",
}


def editor(folder, command, name):
    """Runs an editor over a text, and gives the lines that it tells."""
    assert shutil.which(command[0]), f"there is no {command[0]}; .ci/setup installs it"
    Path(folder, "game.lf").write_text(TEXT)
    environment = {**os.environ, "HOME": str(folder), "EDITORS": str(EDITORS), "TERM": "dumb"}
    how = {"cwd": folder, "env": environment, "stdin": subprocess.DEVNULL, "timeout": SECONDS, "check": False}
    ran = subprocess.run(command, capture_output=True, text=True, **how)
    out = Path(folder, "OUT")
    told = out.read_text() if out.exists() else ran.stdout
    assert told, f"{name} says nothing: {ran.stderr[-2000:]}"
    return [line.rstrip() for line in told.splitlines()]


def vim(folder):
    told = editor(folder, ["vim", "-N", "-u", "NONE", "-es", "-S", TESTS / "ale.vim"], "vim")
    assert told == [
        "filetype warpd", "colour warpdStructure warpdBody warpdTestWord warpdTestWord warpdTest",
        "fault 5:20 `live` is not declared here did you mean `lives`?", "definition 3:9", RENAMED], told


def emacs(folder):
    told = editor(folder, ["emacs", "--batch", "-Q", "-l", TESTS / "eglot.el"], "emacs")
    assert told == [
        "mode warpd-mode", "colour font-lock-keyword-face font-lock-keyword-face nil", "fault 5: warpd: `live` is not declared here",
        "definition 3:9", RENAMED], told


def indented(folder, command, lines):
    """An editor that indents texts anew leaves them as they are."""
    for path in sorted((ROOT / "examples").glob("*.lf")):
        Path(folder, path.name).write_text("\n".join(line.strip() for line in path.read_text().split("\n")))
        environment = {**os.environ, "HOME": str(folder), "EDITORS": str(EDITORS), "TERM": "dumb"}
        words = [it.replace("FILE", path.name) if isinstance(it, str) else it for it in command]
        how = {"cwd": folder, "env": environment, "stdin": subprocess.DEVNULL, "timeout": SECONDS, "check": True}
        subprocess.run(words, capture_output=True, **how)
        got, wanted = Path(folder, path.name).read_text().split("\n"), path.read_text().split("\n")
        wrong = [f"{path.name}:{number}: `{it}`" for number, (it, line) in enumerate(zip(got, wanted), 1) if it != line]
        assert not wrong and len(got) == len(wanted), wrong[:5]
        lines += len(wanted)
    assert lines > 200


def vim_indents(folder):
    setup = f"set rtp^={EDITORS}/vim | filetype plugin indent on"
    indented(folder, ["vim", "-N", "-u", "NONE", "-es", "--cmd", setup, "-c", "normal gg=G", "-c", "wq", "FILE"], 0)


def emacs_indents(folder):
    does = "(setq make-backup-files nil) (find-file \"FILE\") (indent-region (point-min) (point-max)) (save-buffer)"
    mode = str(EDITORS / "emacs" / "warpd-mode.el")
    indented(folder, ["emacs", "--batch", "-Q", "-l", mode, "--eval", f"(progn {does})"], 0)


# Visual Studio Code.


def tokens(paths):
    command = ["node", TESTS / "tokens.js", VSCODE / "syntaxes" / "warpd.tmLanguage.json", *paths]
    ran = subprocess.run(command, capture_output=True, text=True, timeout=SECONDS, check=False)
    assert ran.returncode == 0, ran.stderr
    return [json.loads(line) for line in ran.stdout.splitlines()]


def scopes_at(line, column):
    return next((scopes for start, end, scopes in line if start <= column < end), [])


def expected_scopes():
    """Below each line of `tokens.lf` stand the scopes that it must have."""
    (found,) = tokens([TESTS / "tokens.lf"])
    count, last = 0, 0
    for number, line in enumerate((TESTS / "tokens.lf").read_text().split("\n")):
        mark = re.fullmatch(r"//( *)(\^+) (\S.*)", line)
        if not mark:
            last = number
            continue
        start = 2 + len(mark[1])
        for column in range(start, start + len(mark[2])):
            scopes = scopes_at(found[last], column)
            assert set(mark[3].split()) <= set(scopes), f"{number + 1}: `{line.strip()}`: {scopes}"
            count += 1
    assert count > 250, f"only {count} letters are looked at"


def same_words(paths):
    """What the compiler takes for a number, a name, a comment or a word of the language the grammar does too."""
    count = 0
    for path, found in zip(paths, tokens(paths)):
        text = path.read_text()
        lines = text.split("\n")
        for word in every_word(in_place(collapsed(Lexer(text, grammar().kinds).words()))):
            kind = word.kind if word.kind in SCOPES else "WORD" if word.text.isidentifier() else "SIGN"
            if not word.text or kind == "SIGN" and word.text in "(){}[]:;,.":
                continue
            scopes = scopes_at(found[word.line - 1], word.column - 1)
            place = f"{path.name}:{word.line}:{word.column}: `{word.text}` in {lines[word.line - 1].strip()}"
            assert scopes and re.match(SCOPES[kind], scopes[-1]), f"{place}: {kind} is {scopes}"
            assert not any(it.startswith("comment") for it in scopes), place
            count += 1
    assert count > 4_000, f"only {count} words are looked at"


def every_word(words):
    for it in words:
        yield it
        yield from it.parts


def package():
    """Each file of the package is there and is JSON; what it declares, the extension has."""
    made = json.loads((VSCODE / "package.json").read_text())["contributes"]
    files = [it["path"] for part in ("grammars", "snippets") for it in made[part]]
    for name in [*files, made["languages"][0]["configuration"]]:
        json.loads((VSCODE / name).read_text())
    code = (VSCODE / "extension.js").read_text()
    for it in made["commands"]:
        assert f'registerCommand("{it["command"]}"' in code, it
    snippets = json.loads((VSCODE / "snippets" / "warpd.json").read_text())
    assert len({it["prefix"] for it in snippets.values()}) == len(snippets)
    for name, it in snippets.items():
        body = "\n".join(it["body"]) if isinstance(it["body"], list) else it["body"]
        assert body.count("{") == body.count("}"), name


def extension(folder):
    """The extension over a stand-in for the editor, with the real language server."""
    Path(folder, "game.lf").write_text(TEXT)
    command = ["node", TESTS / "extension.js", VSCODE, folder]
    ran = subprocess.run(command, capture_output=True, text=True, timeout=SECONDS, check=False)
    assert ran.returncode == 0 and ran.stdout.endswith("all is well\n"), f"{ran.stdout}{ran.stderr}"
