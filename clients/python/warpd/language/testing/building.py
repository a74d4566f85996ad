"""The parts of a test's tree that the rules of the grammar make."""

from __future__ import annotations

from . import tree


class TestBuilder:
    """Makes the parts of tests, from the inside out."""

    __test__ = False

    def test(self, name, orders, *steps):
        return tree.Block(name.text[1:-1], orders is not None, tuple(it for it in steps if it), name.at)

    def orders(self, word, _every, _order):
        return word

    def happens(self, name, value, _at, moments):
        return tree.Happens(name, value, moments)

    def withdrawal(self, _word, name, _at, moments):
        return tree.Withdrawal(name, moments)

    def ask(self, word):
        return tree.Ask(word.at)

    def draw(self, word, count, _of, *rest):
        *choices, _at, times = rest
        return tree.Draw(count, tuple(choices), times, word.at)

    def drawn(self, name, values):
        return tree.Drawn(name, values)

    def drawn_withdrawal(self, _word, name):
        return tree.Drawn(name, None)

    def range(self, first, _to, last):
        return tree.Range(first, last or first)

    def expect(self, word, value, _at, moment):
        return tree.Expect(value, moment, False, word.at)

    def expect_always(self, word, _always, value):
        return tree.Expect(value, None, True, word.at)

    def expect_puts(self, word, output, _puts, *rest):
        return tree.Puts(output, tuple(it for it in rest if isinstance(it, tree.Put)), word.at)

    def put(self, value, _at, moment):
        return tree.Put(value, moment)

    def moments(self, *parts):
        return parts

    def some_moments(self, moment):
        return moment

    def series(self, first, _to, last, _every, step):
        return tree.Series(first, last, step)

    def moment(self, time):
        return tree.Moment(time, None)

    def tag(self, time, micro):
        return tree.Moment(time, micro)
