"""Which `warpd` is run where a tool of the package wants one."""

from __future__ import annotations

import os
import shutil
import subprocess
from pathlib import Path
from typing import Optional

CHECKOUT = Path(__file__).resolve().parents[3]
PROVED = Path("crates", "warpd", "out", "warpd")
NOWHERE = (
    "there is no `warpd` on the path, and none beside this checkout: say where it is by --warpd PATH; ./try of a "
    "checkout builds one in some minutes, with no proof")


class Fails(Exception):
    """The program cannot be run: why."""


def found(path: Optional[str] = None) -> list[str]:
    """The command of `warpd`: this one, else that of the path, else that of the checkout. Where ./warpd of the checkout
    stands on the path and would have to prove the program first, that is ./try, which builds it if need be."""
    proving, tried = CHECKOUT / "warpd", CHECKOUT / "try"
    named = shutil.which(path or "warpd")
    if path and not named:
        raise Fails(f"{path}: there is no such program")
    if named and _is(named, tried):
        return [_built(tried)]
    if named and not _is(named, proving):
        return [os.path.abspath(named)]
    if path or _is_current():
        _run(proving)
        return [str(CHECKOUT / PROVED)]
    if not tried.exists():
        raise Fails(NOWHERE)
    return [_built(tried)]


def _is(named: str, script: Path) -> bool:
    return script.exists() and os.path.samefile(named, script)


def _is_current() -> bool:
    """Whether the checkout has the proved program, and no source of it is newer."""
    if not (CHECKOUT / PROVED).exists():
        return False
    built = (CHECKOUT / PROVED).stat().st_mtime
    sources = (it for part in ("src", "specs", "proofs") for it in CHECKOUT.glob(f"crates/*/{part}/**/*"))
    return all(it.stat().st_mtime <= built for it in sources)


def _run(script: Path) -> None:
    """Starts a script once, so that it builds what it becomes; what it says of that is shown."""
    made = subprocess.run([script, "--version"], stdout=subprocess.DEVNULL, check=False)
    if made.returncode:
        raise Fails(f"{script} builds no program")


def _built(tried: Path) -> str:
    """The program that ./try becomes, which it builds where it is missing; else ./try itself."""
    _run(tried)
    kept = tried.parent / "out" / "try"
    try:
        program = kept / (kept / "current").read_text().split()[0] / "warpd"
    except (OSError, IndexError):
        return str(tried)
    return str(program if program.exists() else tried)
