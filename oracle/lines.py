#!/usr/bin/env python3
# The time that fade and the plain Rust program take for the same batches, of N lines and of a tenth
# of them, once they have printed the same: see README.md. It ends with 1 where they have not.

import os
import sys

RUNS = 7
RUST = "target/oracle/lines"
FADE = "crates/fade/out/fade"
BATCHES = ["target/oracle/lines.txt", "target/oracle/lines-tenth.txt"]


def run(program, batch, out):
    """Runs a program from one file to another: seconds of user time and of system time."""
    files = [
        (os.POSIX_SPAWN_OPEN, 0, batch, os.O_RDONLY, 0),
        (os.POSIX_SPAWN_OPEN, 1, out, os.O_WRONLY | os.O_CREAT | os.O_TRUNC, 0o644),
    ]
    child = os.posix_spawn(program, [program], os.environ, file_actions=files)
    _, status, usage = os.wait4(child, 0)
    if os.waitstatus_to_exitcode(status) not in (0, 8):  # 8: the batch ends in the middle of a line
        sys.exit(f"{program} failed on {batch}")
    return usage.ru_utime, usage.ru_stime


def printed(program, batch):
    """What a program prints for a batch."""
    out = f"target/oracle/{os.path.basename(program)}.out"
    run(program, batch, out)
    return content(out)


def content(path):
    """The bytes of a file."""
    with open(path, "rb") as file:
        return file.read()


def best(programs, batch):
    """Each program's least user time, and least user and system time together. They take turns."""
    runs = {program: [] for program in programs}
    for _ in range(RUNS):
        for program in programs:
            user, system = run(program, batch, "/dev/null")
            runs[program].append((user, user + system))
    return {program: [min(times) for times in zip(*all_runs)] for program, all_runs in runs.items()}


def same_output(programs):
    """Whether all programs print the same for each batch, and for the sample what its file says."""
    wanted = [(batch, printed(RUST, batch)) for batch in BATCHES]
    wanted.append(("crates/fade/stdin", content("crates/fade/stdout")))
    same = True
    for batch, out in wanted:
        for program in programs:
            if printed(program, batch) != out:
                print(f"{program} prints something else for {batch}")
                same = False
    return same


def ratios(times, others):
    """The one times by the others, in words."""
    return " and ".join(f"{a / b:.2f}" if b else "none" for a, b in zip(times, others))


def main():
    """Compares, measures and prints."""
    programs = [RUST, FADE] if os.path.exists(FADE) else [RUST]
    if not same_output(programs):
        return 1
    print(f"the best of {RUNS} runs; user time, and user and system time together")
    table = {}
    for batch in BATCHES:
        lines = content(batch).count(b"\n")
        table[batch] = best(programs, batch)
        for program, (user, both) in table[batch].items():
            ns = f"{user / lines * 1e9:.0f} and {both / lines * 1e9:.0f} ns a line"
            print(f"{program}, {lines:,} lines: {user * 1e3:.1f} and {both * 1e3:.1f} ms, {ns}")
    whole, tenth = (table[batch] for batch in BATCHES)
    for program in programs:
        print(f"{program}, all by a tenth: ratio {ratios(whole[program], tenth[program])}")
    if FADE not in programs:
        print(f"{FADE} is not there: rt run </dev/null in crates/fade makes it")
        return 0
    print(f"fade by the Rust: ratio {ratios(whole[FADE], whole[RUST])}; the same bytes printed")
    return 0


sys.exit(main())
