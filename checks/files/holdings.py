"""Files that hold something else than a ledger, or nothing, and what can't be opened."""
import fcntl
import os
import sqlite3
import zipfile

from parts import make
from programs import Said, kept, require_same

FOREIGN = "it holds an unfinished ledger, or another program's file; --overwrite takes it"
LEDGER = "it holds a ledger already, which stays as it is"
NO_LEDGER = "it holds no ledger; derbyfig format makes one of a file without anything"


def database(path, _moments):
    with sqlite3.connect(path) as held:
        held.execute("create table postings (account, amount)")
        held.executemany("insert into postings values (?, ?)", [(number, 5) for number in range(1000)])
    held.close()


def archive(path, _moments):
    with zipfile.ZipFile(path, "w") as held:
        held.writestr("journal", "deposit 1 500\n" * 100)
    path.write_bytes(path.read_bytes() + bytes(-path.stat().st_size % 512))


def text(path, _moments):
    path.write_text(("2026-11-26 opening balance\n" * 400)[:8192], encoding="ascii")


def noise(path, moments):
    path.write_bytes(moments.randbytes(8192))


def of_other_programs(programs, moments):
    """No program takes them for a ledger or for nothing, and only --overwrite formats them."""
    for write in (database, archive, text, noise):
        path = programs.folder / write.__name__
        write(path, moments)
        require_same(path.stat().st_size % 512, 0, f"the length of {path}")
        require_foreign(programs, path)
    path = make(programs, "spoiled", 4, 30)
    path.write_bytes(b"TLDC" + path.read_bytes()[4:])
    require_foreign(programs, path)


def require_foreign(programs, path):
    for words in ((), ("--sectors", "295")):
        programs.require_refused(path, NO_LEDGER, *words)
    for words in (("--format", "4"), ("--format", "4", "--sectors", "295")):
        programs.require_refused(path, FOREIGN, *words)
    said = programs.check(path)
    begin = f"{path}: it holds no ledger (sector 0, byte "
    require_same((said.status, said.told, said.printed[:len(begin)]), (1, "", begin), "the check")
    programs.require_formatted(path, 4, max(55, path.stat().st_size // 512), "--overwrite")


def of_nothing(programs, _moments):
    """An empty file and one of zeros are formatted; one with a single byte at its end isn't."""
    for sectors in (0, 3, 55, 700):
        path = programs.folder / f"zeros_{sectors}"
        path.write_bytes(bytes(512 * sectors))
        programs.require_refused(path, NO_LEDGER)
        programs.require_formatted(path, 4, max(55, sectors))
    path = programs.folder / "one_byte"
    path.write_bytes(bytes(512 * 700 - 1) + b"\1")
    programs.require_refused(path, FOREIGN, "--format", "4")


def as_nobody():
    """Runs a program as a user who owns nothing, where this user may."""
    os.setgroups([])
    os.setuid(65534)


def that_cant_be_opened(programs, _moments):
    """A folder, a pipe, a length of no whole sectors, and files without permission: one sentence of serve and of check."""
    folder, pipe, odd = (programs.folder / name for name in ("folder", "pipe", "odd"))
    folder.mkdir()
    os.mkfifo(pipe)
    odd.write_bytes(bytes(513))
    appended = "its length is no multiple of 512 bytes; it is no ledger, or something was appended to it"
    for path, sentence in ((folder, "it is neither a file nor a disk"), (pipe, "it is neither a file nor a disk"), (odd, appended)):
        for words in ((), ("--format", "4"), ("--format", "4", "--overwrite")):
            programs.require_refused(path, sentence, *words, status=3)
        # a folder may be an archive
        told = Said(1, f"{path}: it has no ledger of an archive\n", "") if path == folder else Said(3, "", f"{path}: {sentence}")
        require_same(programs.check(path), told, "the check")
    require_same(programs.script(odd, "frob\n"), Said(1, "", "device failed"), "a script, of which no line is read")
    require_same(odd.stat().st_size, 513, "the length of the file")
    if os.getuid() != 0:
        print("not tried: files without permission, since this user may not run a program as another one")
        return
    path = make(programs, "ledger", 4, 30)
    path.chmod(0o400)
    programs.require_refused(path, "it may not be read and written; its owner can allow that", status=3, preexec_fn=as_nobody)
    said = programs.check(path, preexec_fn=as_nobody)
    require_same(said, Said(3, "", f"{path}: it may not be read; its owner can allow that"), "the check of another user")
    new = programs.folder / "new"
    sentence = "it may not be read and written; its owner can allow that"
    programs.require_refused(new, sentence, "--format", "4", status=3, preexec_fn=as_nobody)


def that_another_program_has(programs, _moments):
    """A file that is locked is refused, and keeps its bytes."""
    path = make(programs, "ledger", 4, 30)
    with open(path, "rb") as held:
        fcntl.flock(held, fcntl.LOCK_EX)
        before = kept(path)
        sentence = "another program has it; end that one first"
        for words in ((), ("--sectors", "295"), ("--format", "4"), ("--format", "4", "--overwrite")):
            programs.require_refused(path, sentence, *words, status=3)
        require_same(programs.check(path), Said(3, "", f"{path}: {sentence}"), "the check")
        require_same(kept(path), before, "the file that another program has")
