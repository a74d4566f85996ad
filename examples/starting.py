"""What each demo begins with: the program over which it plays, found and built."""

import argparse
import shutil
import subprocess
import sys
from pathlib import Path

ROOT = Path(__file__).resolve().parent.parent


def found(word):
    """The program that a word of the command line names."""
    if program := shutil.which(word):
        return program
    raise argparse.ArgumentTypeError(f"there is no program {word}")


def named_program(demo, about):
    """The program that the command line names, or else ./warpd."""
    parser = argparse.ArgumentParser(prog=demo, description=about)
    parser.add_argument("program", metavar="PROGRAM", nargs="?", type=found,
                        help="./warpd, which is proved at its first call, where none is given; ./try is there in minutes")
    if program := parser.parse_args().program:
        return program
    print(f"{demo}: it plays over ./warpd, whose first call proves it for half an hour and more; {demo} ./try is there in minutes",
          file=sys.stderr)
    return str(ROOT / "warpd")


def make_ready(demo, program):
    """Lets ./try and ./warpd build what they become, and say so on standard error, before a host begins."""
    try:
        subprocess.run([program, "--version"], stdin=subprocess.DEVNULL, stdout=subprocess.DEVNULL, check=True)
    except KeyboardInterrupt:
        sys.exit(130)
    except OSError as error:
        sys.exit(f"{demo}: {error}")
    except subprocess.CalledProcessError as error:
        sys.exit(f"{demo}: {program} --version ended with status {error.returncode}")
