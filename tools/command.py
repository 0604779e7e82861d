"""How the tools are called, read and write. What fails is told in one line on standard error, and the status is 2."""
import argparse
import json
import os
import sys


def say(what):
    print(f"{os.path.basename(sys.argv[0])}: {what}", file=sys.stderr)


def refuse(why, status=1):
    """Says why there is nothing to write, and ends."""
    say(why)
    sys.exit(status)


def read_bytes(path, most=-1):
    """What a file has, at most so many bytes; or standard input, where the path is -. None where it can't be read."""
    try:
        with open(0 if path == "-" else path, "rb") as file:
            return file.read(most)
    except OSError as error:
        say(f"can't read {path}: {error.strerror}")
        return None


def write_lines(lines, status=0):
    """Writes the lines, and ends with this status. A reader that has gone wants no more of them: that is no failure."""
    try:
        with open(1, "wb", closefd=False) as file:
            file.write("".join(f"{line}\n" for line in lines).encode("utf-8", "surrogateescape"))
    except BrokenPipeError:
        pass
    except OSError as error:
        say(f"can't write: {error.strerror}")
        status = 2
    sys.exit(status)


class Options(argparse.ArgumentParser):
    """The words of one tool. What its --help prints is the text at the top of the tool."""

    def __init__(self, text):
        super().__init__(usage=argparse.SUPPRESS, description=text.strip(), allow_abbrev=False)

    def print_help(self, file=None):
        write_lines(self.description.splitlines())

    def error(self, message):
        refuse(f"{message}; --help tells more", 2)


def member_lines(key, value):
    """The lines of one member of an object, but for the comma behind it."""
    if isinstance(value, list) and value and isinstance(value[0], (list, dict)):
        lines = [f"    {json.dumps(it)}," for it in value]
        return [f"  {json.dumps(key)}: [", *lines[:-1], lines[-1][:-1], "  ]"]
    return [f"  {json.dumps(key)}: {json.dumps(value)}"]


def laid_out(whole):
    """This object as lines of JSON: a list of lists or of objects has a line for each, all else stands on one line."""
    lines = []
    for key, value in whole.items():
        if lines:
            lines[-1] += ","
        lines += member_lines(key, value)
    return ["{", *lines, "}"]
