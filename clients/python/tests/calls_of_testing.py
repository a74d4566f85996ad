"""What the calls of warpd.testing say where something is not as it is expected. .ci/tools runs it in a folder with
door.lf and stand-ins for warpd, under unittest and pytest."""

import unittest
from pathlib import Path

import warpd.testing

GARDEN = """target warpd { stop: 9 }
reactor Bed { state water: int = 0; input[2] pour: int; reaction(pour) {= water += pour[0]; =} }
reactor Garden { bed = new Bed(); input pour: int; pour -> bed.pour[0]; }
main reactor { bed = new[2] Bed(); garden = new[2] Garden(); @origin(0) input bed.pour, garden.pour; }
"""
door = warpd.testing.program("door.lf", warpd="PROGRAM")
late = warpd.testing.program("door.lf", warpd="./late")
Path("garden.lf").write_text(GARDEN)
garden = warpd.testing.program("garden.lf", warpd="PROGRAM")


class Door(unittest.TestCase):
    def fails(self, *texts, case=None):
        raised = self.assertRaises(warpd.testing.Unmet)
        self.addCleanup(lambda: [self.assertIn(text, str(raised.exception)) for text in texts])
        return raised

    def pushed(self, program, *times):
        case = program.case()
        for time in times:
            case.event(time=time, input="door.push")
        return case

    def test_what_is_so(self):
        case = self.pushed(door, 27, 8).ask()
        case.withdraw(time=40, input="door.push")
        case.expect("door.found >= 2 && lost == 0")
        case.expect_always("door.open < 2")
        case.expect_vars({"door.found": 2, "door.open": 0})
        case.expect_vars({"door.open": 0}, time=32, micro=0)
        case.in_every_order()
        self.assertEqual(case.vars, {"door.open": 0, "door.found": 2})

    def test_a_variable_that_is_otherwise(self):
        case = self.pushed(door, 27)
        with self.fails("expected door.found == 2, got door.found is 1\nbehind\n  door.push = 1 at 27;"):
            case.expect_vars({"door.found": 2})
        with self.fails("expected door.open == 1 at 33, got door.open is 0"):
            case.expect("door.open == 1", time=33)
        with self.fails("expected always door.open == 0, got door.open is 1 at 27"):
            case.expect_always("door.open == 0")

    def test_another_order(self):
        case = self.pushed(late, 8, 27)
        case.expect_vars({"door.found": 2})
        with self.fails("(in another order", "door.push = 1 at 27;\n  ask;\n  door.push = 1 at 8;"):
            case.in_every_order()

    def test_what_is_wrong_with_a_call(self):
        case = door.case()
        with self.assertRaisesRegex(ValueError, "did you mean `door.found`"):
            case.expect("door.fund == 2")
        with self.assertRaisesRegex(KeyError, "no input is called `door.pull`"):
            case.event(time=3, input="door.pull")
        with self.assertRaisesRegex(KeyError, "no output is called `door.open`"):
            case.outputs("door.open")
        with self.assertRaisesRegex(ValueError, "from 0 to 60"):
            case.event(time=61, input="door.push")

    def test_names_are_those_of_the_text(self):
        case = garden.case()
        case.event(time=3, input="bed[1].pour[0]", value=2)
        case.event(time=4, input="garden_1.pour")
        case.expect_vars({"bed[1].water": 2, "garden[1].bed.water": 1, "bed_0.water": 0})
        self.assertEqual(list(case.vars), ["bed[0].water", "bed[1].water", "garden[0].bed.water", "garden[1].bed.water"])
        self.assertEqual([case.vars[it] for it in ("bed[1].water", "bed_1.water", "garden_1_bed.water")], [2, 2, 1])
        with self.fails("expected bed[1].water == 3, got bed[1].water is 2", "behind\n  bed[1].pour[0] = 2 at 3;"):
            case.expect_vars({"bed_1.water": 3})
        with self.assertRaisesRegex(KeyError, r"no variable is called `bed\[2\].water`: there are bed\[0\].water, "):
            case.vars["bed[2].water"]
        with self.assertRaisesRegex(KeyError, r"no input is called `bed.poor`: there are bed\[0\].pour\[0\], "):
            case.event(time=3, input="bed.poor")

    def test_draws(self):
        @door.drawn("0 to 10 of door.push = 1 to 9, withdraw door.push at 0 to 60")
        def found_once(case):
            case.expect("door.found <= 1")

        texts = 'test "a counter-example" {\n  door.push = 1 at ', "  expect door.found <= 1;\n}"
        with self.fails("expected door.found <= 1, got door.found is 2\nrun ", " of 100, seed 1", *texts) as raised:
            found_once()
        self.assertNotIn("behind", str(raised.exception))

    def test_draws_and_an_assertion_of_python(self):
        @door.drawn("1 of door.push = 1 to 9 at 0 to 60", runs=20)
        def never_found(case):
            assert case.vars["door.found"] < 1, "it is found"

        with self.fails("it is found\n", "\nrun 1 of 20, seed 1\nbehind\n  door.push = 1 at "):
            never_found()

    def test_what_is_told_shows_the_line_of_the_test(self):
        @door.drawn("1 of door.push = 1 to 9 at 0 to 60", runs=20)
        def never_found(case):
            case.expect("door.found < 1")

        result = unittest.TestResult()
        unittest.FunctionTestCase(never_found).run(result)
        ((_, told),) = result.failures
        self.assertIn('case.expect("door.found < 1")', told)
        self.assertNotIn("in _drawn", told)


@door.drawn("0 to 10 of door.push = 1", runs=5, seed=4)
def test_alone(case):
    case.expect("door.found <= 6")
