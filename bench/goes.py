"""What the scripts that measure share: their words, and goes that nothing disturbs."""
import argparse
import os
import time

# how often a go is made anew at most
ANEW = 10


def asked(text, default, more):
    """What the command line asks for, by the script's own text; `more` adds words of the script's own to the parser."""
    head, _, rest = text.partition("\n\n")
    form = argparse.RawDescriptionHelpFormatter
    parser = argparse.ArgumentParser(description=head, epilog=rest, formatter_class=form)
    often = f"{default} if none is named"
    parser.add_argument("goes", type=int, nargs="?", default=default, metavar="GOES", help=often)
    parser.add_argument("--minutes", type=float, metavar="M", help="no round begins after so many minutes")
    more(parser)
    words = parser.parse_args()
    if words.goes < 1:
        parser.error("a number of goes above 0 is needed")
    return words


def stolen():
    """The ticks that the system of this machine was kept from its processors; 0 where it doesn't tell."""
    try:
        with open("/proc/stat", encoding="ascii") as told:
            return int(told.readline().split()[8])
    except (OSError, IndexError, ValueError):
        return 0


class Goes:
    """Goes of some rows, in rounds. A go in which processor time was stolen is made anew, a few times at most."""

    def __init__(self, words):
        self.load_before = os.getloadavg()[0]
        self.words = words
        self.made = 0
        self.left_out = 0
        self.disturbed = 0

    def undisturbed(self, go, anew, *words):
        for _ in range(anew):
            before = stolen()
            told = go(*words)
            if stolen() == before:
                return told
            self.left_out += 1
        self.left_out -= 1
        self.disturbed += 1
        return told

    def of(self, go, rows, anew=ANEW):
        """What each go of each row told, where `go` is called with the words of the row, so often at most."""
        end = None if self.words.minutes is None else time.monotonic() + 60 * self.words.minutes
        told = {row: [] for row in rows}
        while self.made < self.words.goes and (self.made == 0 or end is None or time.monotonic() < end):
            for row, words in rows.items():
                told[row].append(self.undisturbed(go, anew, *words))
            self.made += 1
        return told

    def said(self):
        """Of what the figures are."""
        goes = f"{self.made} goes of each row, of which {self.disturbed} were disturbed; {self.left_out} more left out"
        return f"({goes}; of {os.cpu_count()} processors {self.load_before:.1f} were in use before)"
