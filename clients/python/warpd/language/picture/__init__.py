"""A picture of the structure of a program, as Lingua Franca's diagrams draw it: SVG.

    from warpd.language import read
    from warpd.language.picture import picture_of

    program, report = read(text, "game.lf")
    Path("game.svg").write_text(picture_of(program, "game.lf"))

`structure` finds what is drawn: boxes in boxes, what each has, and what is connected. `layers` puts what is in a box
into layers from left to right, `placing` finds the coordinates and the ways of the lines, and `drawing` writes the
SVG."""

from ..model import Program
from .drawing import drawn
from .structure import structure_of


def picture_of(program: Program, file: str) -> str:
    """The picture of a program that could be compiled, made of a text of this name."""
    return drawn(structure_of(program, file), file)


__all__ = ["picture_of", "structure_of"]
