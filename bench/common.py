"""What the programs of this folder share that time one proved program of crates/ each, by its standard input."""
import os
import subprocess
import sys

TOP = os.path.dirname(os.path.dirname(os.path.abspath(__file__)))


def built(name):
    """The path of a program, which is built where there is none."""
    folder = os.path.join(TOP, "crates", name)
    path = os.path.join(folder, "out", name)
    if not os.path.exists(path):
        subprocess.run(["rt", "run"], cwd=folder, stdin=subprocess.DEVNULL, stdout=subprocess.DEVNULL,
                       stderr=subprocess.DEVNULL, check=False)
    if not os.path.exists(path):
        sys.exit("no program: run `rt run` in crates/%s and read what it says" % name)
    return path


def lines_told(name, text):
    """The words of each line that a program prints of a text."""
    done = subprocess.run([built(name)], input=text.encode(), stdout=subprocess.PIPE, check=True)
    return [line.split() for line in done.stdout.decode().splitlines()]


def heading(*columns):
    print("| %s |" % " | ".join(columns))
    print("|%s" % ("---|" * len(columns)), flush=True)
