"""Tests of programs: `test` blocks are read, run over the built `warpd`, and told.

    from warpd.language.testing.command import read_files

    its = read_files(Path("game.lf"))
    its.tests                       # what can be run
    print(its.report, end="")       # faults, with their lines

A test says what comes, and what is expected of it. What no test can show of a program is shown of its replicas by
`in every order`: the records come shuffled, late, again, and with others that are withdrawn, and each replica must say
the same."""
