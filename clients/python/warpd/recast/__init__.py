"""Recasts a journal: the old records under a new program, from the beginning.

    python3 -m warpd recast OLD.json NEW.json OLD.journal -o NEW.journal

It is for who is still writing a program: what was released may be otherwise under the new one. `subject.py` has what is told of a
program, `mapping.py` which input of the one is which of the other, `running.py` what both make of the records, and `command.py` the
words."""
