"""Runs a document's commands in a copy of the repository."""
import os
import shutil
import subprocess
from pathlib import Path

SECONDS = 900


class Copy:
    """A copy of the repository, in which `rt run` is answered by a program that is there and needs no proof, and `derbyfig` by
    that one."""

    def __init__(self, folder, program, derbyfig):
        self.folder = Path(folder)
        shutil.copytree(".", self.folder / "copy", ignore=shutil.ignore_patterns("out", ".git", "__pycache__"))
        stands_in = self.folder / "bin" / "rt"
        stands_in.parent.mkdir()
        stands_in.write_text(
            "#!/usr/bin/env bash\n"
            'if [ "$1" = run ]; then\n'
            "    shift\n"
            '    if [ "${1:-}" = -- ]; then shift; fi\n'
            f'    exec "{Path(program).resolve()}" "$@"\n'
            "fi\n"
            f'exec "{shutil.which("rt")}" "$@"\n')
        stands_in.chmod(0o755)
        (self.folder / "bin" / "derbyfig").symlink_to(Path(derbyfig).resolve())

    def fault(self, commands):
        """Why the commands end badly, or None where they end well."""
        words = ["bash", "-euo", "pipefail", "-c", commands]
        path = {**os.environ, "PATH": f"{self.folder / 'bin'}:{os.environ['PATH']}"}
        try:
            ended = subprocess.run(words, cwd=self.folder / "copy", env=path, stdin=subprocess.DEVNULL, text=True,
                                   stdout=subprocess.PIPE, stderr=subprocess.STDOUT, timeout=SECONDS)
        except subprocess.TimeoutExpired:
            return f"no end within {SECONDS} seconds"
        return f"status {ended.returncode}\n{ended.stdout}" if ended.returncode else None
