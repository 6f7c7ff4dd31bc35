"""Runs the program, and reads the lines that it prints."""
import subprocess


class Console:
    """The program at a path, with the words that it is always given."""

    def __init__(self, program, *words):
        self.command = [str(program), *map(str, words)]

    def lines(self, script):
        """What the program prints on these lines of a script."""
        ended = subprocess.run(self.command, input="\n".join(script) + "\n", capture_output=True, text=True)
        if ended.returncode:
            raise SystemExit(f"{' '.join(self.command)} ended with {ended.returncode}: {ended.stderr.strip()}")
        return ended.stdout.splitlines()
