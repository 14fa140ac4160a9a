"""The programs that the tools run: jarena, and journals, which prints the asks of a trace."""
import collections
import functools
import os
import re
import subprocess
import sys

TOOLS = os.path.dirname(os.path.realpath(__file__))
ASK = re.compile(r"box (\d+) (\w+)\((.*)\) -> (.*)")


class Wrong(Exception):
    """What the user has to know."""


def found_by(finder, program):
    """Where a program stands by one of the scripts beside this file, or None; what the script does is said on standard error."""
    told = subprocess.run([f"{TOOLS}/{finder}", program], stdout=subprocess.PIPE, text=True)
    return told.stdout.strip() if told.returncode == 0 else None


@functools.cache
def built(program):
    """The proved program where that is built and current, or the checked one, which is made where it isn't kept; None without one."""
    if found := found_by("proved-program", program):
        return found
    if found := found_by("checked-program", program):
        print(f"{program}: running the checked but unproved program; {TOOLS}/build-proved builds the proved one, which is many times as fast",
              file=sys.stderr)
        os.environ.setdefault("ASAN_OPTIONS", "abort_on_error=0:exitcode=125")
        return found
    return None


def jarena():
    """The program that replays: the one that JARENA names, the one that is built, or the launcher, which makes one for each run."""
    return os.environ.get("JARENA") or built("jarena") or f"{os.path.dirname(TOOLS)}/jarena"


def journals():
    """The program that prints asks and journals: the one that JOURNALS names, or the one that is built."""
    found = os.environ.get("JOURNALS") or built("journals")
    if found is None:
        raise Wrong("the program journals couldn't be made")
    return found


def asker():
    """The program that prints the asks and journals of what jarena() replays; None where that is the user's own, which prints none."""
    named = os.environ.get("JARENA")
    if os.environ.get("JOURNALS") or not named:
        return journals()
    told = subprocess.run([named, "asks"], stdin=subprocess.DEVNULL, stdout=subprocess.DEVNULL, stderr=subprocess.DEVNULL)
    return named if told.returncode == 0 else None


def tell_length(tool, lines):
    """Says of a long trace that it takes its time."""
    if lines > 20000:
        print(f"{tool}: carrying out {lines} lines; the checked program takes a minute or two for each 100,000", file=sys.stderr, flush=True)


def output_of(words, lines):
    """What a program prints of a trace, line by line."""
    told = subprocess.run(words, input="\n".join(lines) + "\n", capture_output=True, text=True)
    if told.returncode != 0:
        last = told.stdout.splitlines()[-1:] or [told.stderr.strip()]
        raise Wrong(f"{os.path.basename(words[0])} ended with status {told.returncode}: {last[0]}")
    return told.stdout.splitlines()


def count_asks(program, lines):
    """How many asks a trace makes, by box and kind, from a program that prints them."""
    found = (ASK.fullmatch(line) for line in output_of([program, "asks"], lines))
    return collections.Counter((int(it[1]), it[2]) for it in found)


def count_asks_by_steps(lines):
    """How many asks a trace makes, by kind, of any program that replays. It takes several times as long, and a long trace has none."""
    found = (re.match(r"t\d+ ask (\w+) ", line) for line in output_of([f"{TOOLS}/steps"], lines))
    return collections.Counter(it[1] for it in found if it)


def end_with(main):
    """Runs a tool and ends with its status; quietly where nobody reads its output any more, or Ctrl-C ends it."""
    try:
        status = main(sys.argv[1:])
        sys.stdout.flush()
    except BrokenPipeError:
        os.dup2(os.open(os.devnull, os.O_WRONLY), sys.stdout.fileno())
        status = 141
    except KeyboardInterrupt:
        status = 130
    sys.exit(status)
