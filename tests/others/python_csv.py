"""Files that the library writes, read back by Python's csv module: the same table, but for the known
difference, that a blank line is a record of one empty field to the rules and of no field to Python."""

import csv
import io
import sys

from tables import FULL, PLAIN, has_blank_line, tables, written


def read_back(file):
    return list(csv.reader(io.StringIO(file, newline=""), strict=True))


def expected(table, mode):
    if not has_blank_line(table, mode):
        return table
    return [[] if record == [""] else record for record in table]


def main(command):
    wanted = [(table, mode) for table in tables() for mode in (PLAIN, FULL)]
    blank = failures = 0
    for (table, mode), file in zip(wanted, written(command, wanted)):
        blank += has_blank_line(table, mode)
        came = read_back(file)
        if came != expected(table, mode):
            failures += 1
            print(f"mode {mode}: {table!r} is written as {file!r} and comes back as {came!r}")
    print(f"{len(wanted):9}  files read back by Python's csv module")
    print(f"{blank:9}  of them with a blank line, which Python takes for no field")
    print(f"{failures} differences beyond that")
    return failures != 0 or blank == 0


sys.exit(main(sys.argv[1:]))
