"""Files that the library writes, read back by Miller and by Perl's Text::CSV: the same table, but for the
known difference of each reader. Text::CSV has none; Miller makes LF of a CRLF between quotes."""

import json
import subprocess
import sys

from tables import FULL, PLAIN, has_blank_line, random_tables, written

MILLER = ["mlr", "--icsv", "--ojson", "--implicit-csv-header", "-S", "cat"]
TEXT_CSV = ["perl", "tests/others/text_csv.pl"]


def run(command, file):
    done = subprocess.run(command, input=file.encode("ascii"), stdout=subprocess.PIPE, stderr=subprocess.DEVNULL)
    return json.loads(done.stdout) if done.returncode == 0 else None


def by_miller(file):
    records = run(MILLER, file)
    return records and [list(record.values()) for record in records]


def expected_of_miller(table):
    return [[content.replace("\r\n", "\n") for content in record] for record in table]


def by_text_csv(file):
    return run(TEXT_CSV, file)


def expected_of_text_csv(table):
    return table


def compare(name, reader, expected, cases):
    """Prints what one reader makes of the cases, and answers how often that is not what is expected."""
    known = failures = 0
    for table, mode, file in cases:
        came = reader(file)
        known += expected(table) != table
        if came != expected(table):
            failures += 1
            print(f"mode {mode}: {table!r} is written as {file!r} and comes back from {name} as {came!r}")
    print(f"{len(cases):9}  files read back by {name}, {known} of them with its known difference")
    print(f"{failures} differences beyond that")
    return failures


def main(command):
    # Miller's JSON for no records is not the point here
    wanted = [(table, mode) for table in random_tables(300, 4181) if table for mode in (PLAIN, FULL)]
    cases = [(table, mode, file) for (table, mode), file in zip(wanted, written(command, wanted))]
    blank = sum(has_blank_line(table, mode) for table, mode in wanted)
    print(f"{blank:9}  files have a blank line, which both readers take for an empty field")
    failures = compare("Miller", by_miller, expected_of_miller, cases)
    failures += compare("Text::CSV", by_text_csv, expected_of_text_csv, cases)
    return failures != 0 or blank == 0


sys.exit(main(sys.argv[1:]))
