#!/usr/bin/env python3
"""Runs the built program once for each growth of its memory, and refuses that one.

usage: memory.py PROGRAM [--workers W] [WORD..]

The words are those of a run. Without words it tries one run of each command, on studies of examples/ and a report that it has the program
write. For each it prints a line.
A small library between the program and the C library's allocator counts the calls that ask for memory, and answers one of them that there
is none. What is asked of each run: where that call came, the status is 7, standard error has the one line `harmscan: out of memory`, and
standard output a front of the whole report, which ends with a line; or all is as in a run that refuses nothing, as where a library had
only reserved ahead, which is counted; where it did not come, all is so too. The first number that isn't reached ends the trial. The status
of the trial is 1 where a run breaks a rule.
"""
import argparse
import concurrent.futures
import itertools
import os
import pathlib
import subprocess
import sys
import tempfile

TOP = pathlib.Path(__file__).resolve().parents[2]

LIBRARY = r"""
#define _GNU_SOURCE
#include <dlfcn.h>
#include <errno.h>
#include <stddef.h>
#include <stdlib.h>
#include <unistd.h>

static unsigned long asked, refused;
static int told = -1;

__attribute__((constructor)) static void begin(void) {
    const char *number = getenv("REFUSED"), *file = getenv("TOLD");
    told = file ? atoi(file) : -1;
    asked = 0;
    refused = number ? strtoul(number, NULL, 10) : 0;
}

static int none(void) {
    if (refused == 0 || ++asked != refused) return 0;
    errno = ENOMEM;
    return write(told, "x", 1) == 1;
}

#define NEXT(type, name) static type next; if (!next) next = (type)dlsym(RTLD_NEXT, name)

typedef void *(*one)(size_t);
typedef void *(*two)(size_t, size_t);
typedef void *(*again)(void *, size_t);
typedef int (*placed)(void **, size_t, size_t);

void *malloc(size_t size) { NEXT(one, "malloc"); return none() ? NULL : next(size); }
void *realloc(void *old, size_t size) { NEXT(again, "realloc"); return none() ? NULL : next(old, size); }
void *aligned_alloc(size_t line, size_t size) { NEXT(two, "aligned_alloc"); return none() ? NULL : next(line, size); }
int posix_memalign(void **to, size_t line, size_t size) { NEXT(placed, "posix_memalign"); return none() ? ENOMEM : next(to, line, size); }
"""


def library(folder):
    source, built = folder / "refuse.c", folder / "refuse.so"
    source.write_text(LIBRARY)
    subprocess.run(["cc", "-shared", "-fPIC", "-O2", "-o", built, source, "-ldl"], check=True)
    return built


def run(words, built, number):
    """The status, both outputs, and whether a growth was refused."""
    seen, told = os.pipe()
    environment = {**os.environ, "LD_PRELOAD": str(built), "REFUSED": str(number), "TOLD": str(told)}
    answer = subprocess.run(words, capture_output=True, env=environment, pass_fds=[told])
    os.close(told)
    reached = os.read(seen, 1) == b"x"
    os.close(seen)
    return answer.returncode, answer.stdout, answer.stderr, reached


def fault(answer, whole):
    """The rule that a run breaks, if it does."""
    status, out, err, reached = answer
    if reached and (status, out, err) == whole[:3]:
        return None
    if not reached:
        return None if (status, out, err) == whole[:3] else "nothing was refused, and the run differs"
    if status != 7 or err != b"harmscan: out of memory\n":
        return f"status {status}, {err!r}"
    if not whole[1].startswith(out) or out and not out.endswith(b"\n"):
        return "what was put is no front of the report"
    return None


def trial(words, built, pool):
    """Refuses each growth of a run in turn. Answers whether each kept the rules."""
    whole = run(words, built, 0)
    numbers, broken, refused, without = itertools.count(1), 0, 0, 0
    while True:
        batch = list(itertools.islice(numbers, 256))
        answers = list(pool.map(lambda number: run(words, built, number), batch))
        for number, answer in zip(batch, answers):
            rule = fault(answer, whole)
            refused += answer[3]
            without += answer[3] and answer[:3] == whole[:3]
            if rule:
                broken += 1
                print(f"growth {number}: {rule}")
        if not all(answer[3] for answer in answers):
            break
    print(f"{refused} growths refused in turn, {without} of them not needed, {broken} runs broke a rule; the run itself has status {whole[0]}: {' '.join(words[1:])}", flush=True)
    return refused and not broken


def runs(program, folder):
    """The words of a run of each command."""
    def example(name):
        return str(TOP / "examples" / name)

    plant = [example("plant.toml"), example("plant/spectrum.csv"), example("plant/levels.csv")]
    report = folder / "report.csv"
    report.write_bytes(subprocess.run([program, "scan", example("zero.toml")], capture_output=True).stdout)
    return [["scan", example("safe.toml")], ["scan", example("feeder.toml")], ["limits", *plant], ["candidates", example("candidates.toml")],
            ["tolerance", example("tolerance.toml")], ["outages", example("outages.toml")], ["verify", example("zero.toml"), str(report)], ["drill", "7"]]


def main():
    parser = argparse.ArgumentParser()
    parser.add_argument("program")
    parser.add_argument("--workers", type=int, default=4)
    parser.add_argument("words", nargs="*")
    asked = parser.parse_args()
    program = str(pathlib.Path(asked.program).resolve())
    with tempfile.TemporaryDirectory() as folder, concurrent.futures.ThreadPoolExecutor(asked.workers) as pool:
        folder = pathlib.Path(folder)
        built = library(folder)
        kept = [trial([program, *words], built, pool) for words in ([asked.words] if asked.words else runs(program, folder))]
    sys.exit(0 if all(kept) else 1)


if __name__ == "__main__":
    main()
