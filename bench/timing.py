"""What the benchmarks share: the built program, texts of a size, and how long and how large a run is."""
import os
import pathlib
import subprocess
import sys
import time

ROOT = pathlib.Path(__file__).resolve().parents[1]
PROGRAM = ROOT / "crates" / "station_cli" / "out" / "station_cli"


def built():
    """The program that was named, or else the built one."""
    if len(sys.argv) > 1:
        return pathlib.Path(sys.argv[1]).resolve()
    done = subprocess.run([ROOT / "station"], stdout=subprocess.DEVNULL)
    if done.returncode != 4:
        sys.exit("the program was not built")
    return PROGRAM


def filled(head, lines, tail, size):
    """The head, as many lines as fit, spaces up to the size, and the tail."""
    room = size - len(head) - len(tail)
    parts = []
    for line in lines:
        if len(line) > room:
            break
        parts.append(line)
        room -= len(line)
    return head + "".join(parts) + " " * room + tail


def check_verdict(program, folder, file, wanted):
    words = [program, "check", file]
    shown = subprocess.run(words, cwd=folder, stdout=subprocess.PIPE, text=True).stdout.partition("\n")[0]
    if shown != wanted:
        sys.exit(f"check wrote {shown!r} and not {wanted!r}")


def refused_at_end(file, text, length, fault):
    """The verdict on the text of a file that is refused at its last word, of that length."""
    before = text[:-length]
    column = len(before) - before.rfind("\n")
    return f"VERDICT REFUSED {file}:{before.count(chr(10)) + 1}:{column} {fault}"


def best_times(program, folder, files, runs):
    """The best time of each file. They take turns, so that a spell of other work falls on all of them."""
    best = [None] * len(files)
    for _ in range(runs):
        for k, file in enumerate(files):
            begun = time.perf_counter()
            subprocess.run([program, "check", file], cwd=folder, stdout=subprocess.DEVNULL)
            spent = time.perf_counter() - begun
            best[k] = spent if best[k] is None else min(best[k], spent)
    return best


def peak_memory(program, folder, file):
    """The most memory of a run, in bytes."""
    run = subprocess.Popen([program, "check", file], cwd=folder, stdout=subprocess.DEVNULL)
    return os.wait4(run.pid, 0)[2].ru_maxrss * 1024
