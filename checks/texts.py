"""What the checks of texts share: where these stand, how they are read, and how what is wrong is told."""
import glob
import os
import subprocess
import sys

TOP = os.path.dirname(os.path.dirname(os.path.abspath(__file__)))


def read(path):
    with open(os.path.join(TOP, path), encoding="utf-8") as file:
        return file.read()


def found(*patterns):
    return [path for pattern in patterns for path in sorted(glob.glob(pattern, root_dir=TOP, recursive=True))]


def are_of_base(*paths):
    """Whether these are as in the commit BASE, of which the gate was green: then a check that always says the same of them has said so."""
    def git(*words):
        return subprocess.run(["git", *words, "--", *paths], cwd=TOP, capture_output=True, text=True)
    base = not os.environ.get("WHOLE") and os.environ.get("BASE")
    return bool(base) and git("diff", "--quiet", base).returncode == 0 and not git("ls-files", "-o", "--exclude-standard").stdout


def end(faults, said):
    """Tells what is wrong, or what was seen to be right, and ends so."""
    name = os.path.basename(sys.argv[0])
    for fault in faults:
        print(f"{name}: {fault}", file=sys.stderr)
    if not faults:
        print(f"{name}: {said}")
    sys.exit(1 if faults else 0)
