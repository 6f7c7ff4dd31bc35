"""Runs the console on a script, and prints the best time of some runs and the most memory that one of them took.

Words: the program, its sectors, the script's file, how many lines count, how many runs, and the last line that is wanted.
"""
import os
import sys
import time


def run(program, sectors, script, answers):
    """Seconds, and the most memory in kilobytes, of one run."""
    with open(script, "rb") as source, open(answers, "wb") as sink:
        start = time.monotonic()
        child = os.posix_spawn(
            program,
            [program, "--sectors", sectors],
            os.environ,
            file_actions=[
                (os.POSIX_SPAWN_DUP2, source.fileno(), 0),
                (os.POSIX_SPAWN_DUP2, sink.fileno(), 1),
            ],
        )
        _, status, usage = os.wait4(child, 0)
        seconds = time.monotonic() - start
    if status != 0:
        sys.exit(f"{script}: the program ended with {os.waitstatus_to_exitcode(status)}")
    return seconds, usage.ru_maxrss


def main():
    program, sectors, script, lines, runs, wanted = sys.argv[1:]
    answers = script + ".answers"
    results = [run(program, sectors, script, answers) for _ in range(int(runs))]
    with open(answers, encoding="ascii") as output:
        last = output.read().splitlines()[-1:]
    if last != ([wanted] if wanted else []):
        sys.exit(f"{script}: the last line is {last}")
    seconds = min(seconds for seconds, _ in results)
    memory = max(memory for _, memory in results)
    name = os.path.basename(script)
    print(f"{name}: {seconds:.2f} s, {int(lines) / seconds:,.0f} lines a second, {memory / 1024:.0f} MB")


main()
