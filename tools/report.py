#!/usr/bin/env python3
"""Lays out what explain8080 printed, which it reads from standard input (docs/EXPLAIN.md).

  why    the sentence of a refused day; nothing for a settled one
  csv    the charges that are not 0, in dollars, as lines for a spreadsheet
  page   one HTML page for a browser or for paper

Every amount that it writes is one that was printed; the sums are held against the totals first.
Exit status: 0; 3 where csv or page have a refused day, with the sentence on standard error; 1 where
the lines are not those of explain8080, do not add up, or contradict what a sentence would say.
"""

import os
import sys

sys.dont_write_bytecode = True  # running a tool leaves nothing behind in the repository

import arguments
import report_lines
import report_page
import report_sentences
import report_words

REFUSED = 3

CSV_HEADER = "trading day,area,coordinator,hour ending,charge (dollars)"


def why(_):
    return ""


def csv(day):
    lines = [CSV_HEADER]
    for area, hour in report_lines.hours_of(day.areas):
        for each in hour.charges:
            if each.charge:
                fields = day.date.isoformat(), area.number, each.coordinator, hour.ending
                lines.append("%s,%d,%d,%d," % fields + report_words.plain_dollars(each.charge))
    return "\n".join(lines) + "\n"


def page(day):
    return report_page.settled(day)


def refused(command, refusal):
    """What a refused day prints, says, and ends with."""
    what, look = report_sentences.refusal_sentences(refusal)
    sentence = "%s %s\n" % (what, look)
    if command == "why":
        return sentence, "", 0
    return report_page.refused(what, look) if command == "page" else "", sentence, REFUSED


def report(command, text):
    """What is printed, what is said on standard error, and the exit status."""
    lines = report_lines.read(text)
    if report_lines.is_refused(lines):
        return refused(command, lines)
    return {"why": why, "csv": csv, "page": page}[command](lines), "", 0


def main():
    parser = arguments.parser_of(__doc__)
    parser.add_argument("command", choices=("why", "csv", "page"))
    command = parser.parse_args().command
    if sys.stdin is None or sys.stdout is None:
        sys.exit("report: standard input or standard output is closed.")
    for stream in (sys.stdout, sys.stderr):
        stream.reconfigure(encoding="utf-8", newline="\n")
    try:
        text = sys.stdin.buffer.read().decode("ascii")
        printed, said, status = report(command, text)
    except UnicodeDecodeError:
        sys.exit("report: what is read is not text as explain8080 prints it.")
    except report_lines.Fault as fault:
        sys.exit("report: %s" % fault)
    sys.stderr.write(said)
    write(printed)
    sys.exit(status)


def write(printed):
    try:
        sys.stdout.write(printed)
        sys.stdout.flush()
    except OSError:
        print("report: standard output could not be written.", file=sys.stderr, flush=True)
        os._exit(1)  # what is left would be written once more at the end, and fail again


if __name__ == "__main__":
    main()
