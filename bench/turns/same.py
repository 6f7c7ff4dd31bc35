"""Shows that the plain program is the same console: on random scripts, with refusals and wrong lines, it prints what
the proved one prints, ends as it ends, and leaves the same file.
"""
import random
import subprocess
import sys

from image import ACCOUNTS, sectors_needed
from spoiled import epoch_of, spoil

SCRIPTS = 300

# What journals of 10, 3 and 1 slots in each bank take, and too little for any.
SECTORS = (*[sectors_needed(10)] * 5, sectors_needed(3), sectors_needed(1), 1)

# Slots of the journals that scripts begin with: mostly so few that a full bank is replaced again and again.
SLOTS = (1, 1, 2, 2, 3, 3, 4, 10)
WRONG = (
    "turn", "frob", "post 0 seal 1", "format 0", "turn x", "post 1 deposit 4294967296 1", "open 3 000 102", "bits 1",
)


def entry(words):
    """An entry's words: mostly one that is accepted."""
    account = words.choice((words.randint(0, 65), words.randint(0, ACCOUNTS + 1)))
    other = words.choice((0, 1, 2, ACCOUNTS, ACCOUNTS + 1))
    amount = words.choice((0, 1, 7, 300, 999_999_999_999_999_900))
    return words.choice((
        f"deposit {account} {amount}", f"deposit {account} 00{amount}", f"withdraw {other} {amount}",
        f"transfer {account} {other} {amount}", f"transfer {other} {other} {amount}",
    ))


def bits(words, count):
    return "".join(words.choice("01") for _ in range(count))


def line(words):
    """One line of a script: mostly posts and turns."""
    chance, stations = words.random(), words.choice((2, 3, 3, 4))
    if chance < 0.004:
        return words.choice(WRONG)
    if chance < 0.5:
        return f"post {words.choice((0, 1, 1, 2, 3))} {entry(words)}"
    if chance < 0.9:
        return f"turn {words.choice((0, 1, 1, 2, 3, 300))}"
    if chance < 0.96:
        return words.choice(("bits", "  bits ", "balances", "# nothing", ""))
    return words.choice((
        f"open {stations} {bits(words, stations)} {bits(words, stations)}", f"open {stations} 00 {bits(words, 2)}",
        f"format {words.randint(1, 11)}", "crash\r", f"crash\nopen 3 {bits(words, 3)} {bits(words, 3)}",
    ))


def script(words):
    opening, making = f"open 3 {bits(words, 3)} {bits(words, 3)}", f"format {words.choice(SLOTS)}"
    lines = words.choice(([making, opening],) * 5 + ([opening], [opening], [opening], [making, "crash"], []))
    if "crash" not in lines:
        lines = lines + [line(words) for _ in range(words.randint(1, 200))]
    return "\n".join(lines).encode() + words.choice((b"", b"\n", b"\r", b"\r\n"))


def ended(program, words, text):
    """The status, what is printed, and the errors."""
    run = subprocess.run([program, *words], input=text, capture_output=True)
    return run.returncode, run.stdout, run.stderr


def require_same(folder):
    """Runs both programs on each script, in memory, and on a file that the scripts go on with. Gives how many scripts
    made a checkpoint on the file.
    """
    words, replaced, before = random.Random(1), 0, 0
    files = {program: folder / f"{program}.same" for program in ("proved", "plain")}
    for _ in range(SCRIPTS):
        text, sectors = script(words), ["--sectors", str(words.choice(SECTORS))]
        in_memory = [ended(folder / program, sectors, text) for program in files]
        on_files = [ended(folder / program, ["--device", path, *sectors], text) for program, path in files.items()]
        images = [path.read_bytes() for path in files.values()]
        for one, other in (in_memory, on_files, images):
            if one != other:
                sys.exit(f"the proved and the plain program differ on the script\n{text.decode()}\n{one}\n{other}")
        replaced += epoch_of(images[0]) not in (0, before)
        if words.random() < 0.6:
            spoil(words, files.values())
        before = epoch_of(files["plain"].read_bytes())
    for path in files.values():
        path.unlink()
    return replaced
