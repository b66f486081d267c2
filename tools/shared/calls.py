"""Calls of the program, and the words that the tools share."""

import argparse
import os
import subprocess
import sys

from documents import Fault, read_network, read_timetable

TOP = os.path.dirname(os.path.dirname(os.path.dirname(os.path.abspath(__file__))))
SPENT, NO_PROGRAM = 6, 100


def words(about, example, *files):
    """A parser of words with these files."""
    parser = argparse.ArgumentParser(description=about, epilog=f"Example: {example}", formatter_class=argparse.RawDescriptionHelpFormatter)
    for name, text in files:
        parser.add_argument(name, help=text)
    return parser


NET = ("NET", "the network document")
TIMETABLE = ("TIMETABLE", "the timetable document")
REPORT = ("REPORT", "a report with a plan, as 'optimise' prints it")


def add_begin(parser):
    parser.add_argument("--begin", metavar="HH:MM", type=time_of_day, default=0,
                        help="the time of day at which the timetable starts; without it times count from its start")


def time_of_day(text):
    hours, colon, minutes = text.partition(":")
    if not colon or not hours.isdigit() or not minutes.isdigit() or int(minutes) > 59:
        raise argparse.ArgumentTypeError(f"{text} is no time of day as 06:30")
    return int(hours) * 3600 + int(minutes) * 60


def run_tool(parser, main):
    """Runs a tool on its words: what is wrong with its input goes to standard error, with its status."""
    words_given = parser.parse_args()
    try:
        status = main(words_given) or 0
        sys.stdout.flush()
    except Fault as fault:
        print("\n".join(fault.lines), file=sys.stderr)
        status = fault.status
    except BrokenPipeError:
        os.dup2(os.open(os.devnull, os.O_WRONLY), sys.stdout.fileno())
        status = 5
    sys.exit(status)


def read_both(given):
    """The two documents, and lines on what they say without a meaning."""
    network, strange = read_network(given.NET)
    timetable, more = read_timetable(given.TIMETABLE, network)
    return network, timetable, strange + more


def call(program, *given):
    """What the program prints, and its status."""
    path = program or os.path.join(TOP, "vssplan")
    try:
        ended = subprocess.run([path, *given], stdout=subprocess.PIPE)
    except OSError as fault:
        raise Fault([f"the program {path} can't be run: {fault.strerror}"], NO_PROGRAM) from None
    if ended.returncode == NO_PROGRAM:
        raise Fault([f"{path} could not be built"], NO_PROGRAM)
    return ended.stdout.decode("utf-8", "replace"), ended.returncode
