#!/usr/bin/env python3
"""Gives each sheet of crates/sheets/stdin to the program coefreport, as a user does, and compares what it prints with the report in
crates/sheets/stdout; the status has to be 0. Where standard output cannot be written it has to be another. What a contract cannot say of a program that reads standard input and writes standard output
is tried so, on both of the program's builds (LLVM's and that of Rattle's own compiler), which `rt ci` leaves in crates/coefreport/out."""

import os
import subprocess
import sys

ROOT = os.path.dirname(os.path.dirname(os.path.abspath(__file__)))


def lines_of(name):
    with open(os.path.join(ROOT, "crates", "sheets", name), encoding="utf-8") as lines:
        return lines.read().splitlines(keepends=True)


def sheets():
    """The bytes of each sheet: `sheet 0103`, or `sheet 0103 7FFE 00` with so many copies of the last."""
    for line in lines_of("stdin"):
        if not line.startswith("#"):
            words = line.split()[1:]
            sheet = bytes.fromhex(words[0]) if words else b""
            yield sheet + (int(words[1], 16) * bytes.fromhex(words[2]) if len(words) == 3 else b"")


def reports():
    """The report of each sheet; each ends with a line `end` or `F`, or stands before a comment."""
    report = ""
    for line in lines_of("stdout"):
        if not line.startswith("#"):
            report += line
            if line.startswith(("end ", "F ")):
                yield report
                report = ""


BUILDS = [os.path.join(ROOT, "crates", "coefreport", "out", name) for name in ["coefreport", "coefreport.by-rattle"]]


def refuse_a_lost_report():
    """A report that cannot be written, as to a full device, is an error, also where only the flush at the end finds that out."""
    for build in BUILDS:
        with open("/dev/full", "wb") as full:
            run = subprocess.run([build], input=b"\x01\x01", stdout=full, stderr=subprocess.DEVNULL)
        if run.returncode == 0:
            sys.exit(f"{build}: status 0, and the report was lost")


def main():
    count = 0
    for sheet, report in zip(sheets(), reports(), strict=True):
        for build in BUILDS:
            run = subprocess.run([build], input=sheet, capture_output=True)
            if run.returncode != 0 or run.stdout.decode() != report:
                sys.exit(f"{build}: status {run.returncode} and another report of the sheet {sheet[:40].hex().upper()}, {len(sheet)} bytes")
        count += 1
    refuse_a_lost_report()
    print(f"coefreport: {count} sheets, reported as they have to be; a report that is lost is an error")


main()
