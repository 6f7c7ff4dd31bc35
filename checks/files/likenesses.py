"""What a copy is, byte by byte, whichever command makes it: its slots, its banks, its numbers, balances and seals."""
import shutil

from copies import first_layout, migrate, second_layout
from images import Holding, bodies, made, numbers, sectors_of
from programs import Said, kept, require_same

# Accounts at the ends of sectors and of the bytes of marks.
ACCOUNTS = (1, 8, 9, 64, 65, 128, 1024)

# Slots of a ledger, and batches in it: none; in the first bank alone; in both, with room and without; in the first again.
LEDGERS = ((4, 0), (4, 3), (3, 5), (2, 4), (1, 9))


def batches_of(count):
    """So many batches, each the entries of one: deposits of amounts of all lengths, withdrawals of all there is, and seals."""
    batches = []
    for number in range(count):
        account, sealed = ACCOUNTS[number % len(ACCOUNTS)], ACCOUNTS[(3 * number + 5) % len(ACCOUNTS)]
        amount = 1 + 10 ** min(2 * number + 1, 17)
        batches.append([("deposit", account, amount), ("deposit", 500 + number, 256 ** (number % 7)),
                        *([("seal", sealed, 0)] if number % 3 == 1 else []),
                        *([("withdraw", 500 + number, 256 ** (number % 7))] if number % 2 else [])])
    return batches


def held_after(batches):
    """What a ledger then stands for, by the rules of entries."""
    balances, sealed = {}, set()
    for batch in batches:
        for kind, account, amount in batch:
            if account in sealed:
                continue
            if kind == "seal":
                sealed.add(account)
            else:
                balances[account] = balances.get(account, 0) + (amount if kind == "deposit" else -amount)
    return Holding(len(batches), balances, frozenset(sealed))


def script_of(batches):
    lines = ["open 2 00 10"]
    for number, batch in enumerate(batches):
        lines += [f"post {number % 2} {kind} {account}{f' {amount}' if amount else ''}" for kind, account, amount in batch]
        lines += [f"turn {number % 2}"]
    return "\n".join(lines) + "\n"


def make(programs, name, slots, count):
    """A ledger with so many batches, and what it stands for."""
    path, batches = programs.folder / name, batches_of(count)
    said = programs.run_script(path, f"format {slots}\n{script_of(batches)}", "--sectors", str(sectors_of(slots)))
    require_same((said.status, said.told), (0, ""), "the script that makes a ledger")
    holding = held_after(batches)
    bank, base = divmod(max(count - 1, 0), slots)[0], max(count - 1, 0) // slots * slots
    require_same(programs.check(path).printed, numbers(slots, bank % 2, bank, base, holding), f"the ledger of {slots} slots")
    return path, holding


def require_made(programs, path, slots, holding, before=b""):
    """That the file has the bytes of a ledger that was just made, over those that it had, and `check` tells so."""
    require_same(kept(path) == made(slots, holding, before), True, f"the bytes of {path} with {slots} slots")
    require_same(programs.check(path), Said(0, numbers(slots, 0, 0, holding.next, holding), ""), f"the check of {path}")


def require_goes_on(programs, path, slots, holding):
    """That it takes as many batches as two banks have slots, and one more, and `check` tells the numbers of each bank."""
    for number in range(2 * slots + 1):
        script = f"open 2 00 10\npost 0 deposit {ACCOUNTS[0] + 1} 1\nturn 0\n"
        require_same(programs.run_script(path, script).status, 0, f"a batch of {path}")
        holding = Holding(holding.next + 1, {**holding.balances, ACCOUNTS[0] + 1: number + 1}, holding.sealed)
        bank = number // slots
        base = holding.next - 1 - number % slots
        require_same(programs.check(path).printed, numbers(slots, bank % 2, bank, base, holding), f"{path} with one batch more")


def by_copy(programs, moments):
    """`copy`: slots as asked for, whichever bank of the ledger is live, in a new file and over what another one held."""
    noise = moments.randbytes(512 * 60)
    for number, (slots, count) in enumerate(LEDGERS):
        old, holding = make(programs, f"old_{number}", slots, count)
        new = programs.folder / f"new_{number}"
        for asked in sorted({slots, 1, 5}, reverse=True):
            for words, before in (((), b""), (("--overwrite",), noise)):
                new.unlink(missing_ok=True)
                if before:
                    new.write_bytes(before)
                copied = programs.run(programs.derbyfig, "copy", str(old), str(new), "--slots", str(asked), *words)
                require_same(copied, Said(0, f"copied {asked}\n", ""), f"a copy to {asked} slots")
                require_made(programs, new, asked, holding, before)
        require_goes_on(programs, new, 1, holding)


def by_a_counter(programs, _moments):
    """A counter's `copy`: the slots of the ledger."""
    for number, (slots, count) in enumerate(LEDGERS):
        old, holding = make(programs, f"ledger_{number}", slots, count)
        copies = programs.folder / f"copies_{number}"
        copies.mkdir()
        said = programs.open_office(old, "--copies", str(copies), said="copy\nclose\n")
        told = f"office> copied {count}\n" in said.printed
        require_same((said.status, told, said.told), (0, True, ""), "the office that copies")
        require_made(programs, copies / f"{count:020}", slots, holding)


def by_archive_and_restore(programs, _moments):
    """An archive's file: as many slots as batches, all with their records; `restore`: slots as asked for."""
    old, holding = make(programs, "ledger", 3, 5)
    books = programs.folder / "books"
    books.mkdir()
    for first, count in ((0, 5), (5, 2)):
        if first:
            batches = [[("deposit", 77, 256), ("seal", 78, 0)], [("deposit", 76, 1)]]
            require_same(programs.run_script(old, script_of(batches)).status, 0, "batches behind the first file")
        said = programs.run(programs.derbyfig, "archive", str(old), str(books))
        require_same(said, Said(0, f"archived {count} from {first}\n", ""), "the archive")
        before = held_after(batches_of(5)) if first else Holding(0, {}, frozenset())
        records = bodies(kept(old), 3, first, count)
        file = books / f"{first:020}"
        require_same(kept(file) == made(count, before, records=records), True, f"the bytes of {file}")
        after = holding if not first else Holding(7, {**holding.balances, 77: 256, 76: 1}, holding.sealed | {78})
        require_same(programs.check(file).printed, numbers(count, 0, 0, first, after), f"the check of {file}")
    for slots in (1, 9):
        new = programs.folder / f"restored_{slots}"
        said = programs.run(programs.derbyfig, "restore", str(books), str(new), "--slots", str(slots))
        require_same(said, Said(0, f"restored {slots}\n", ""), "a restored ledger")
        require_made(programs, new, slots, after)
    require_goes_on(programs, programs.folder / "restored_1", 1, after)


def by_migrate(programs, moments):
    """`migrate`: four slots as asked for, and the next number of the older ledger, whichever of its banks is live."""
    older = (first_layout(), Holding(1, {1: 500}, frozenset())), (second_layout(), Holding(2, {1: 10}, frozenset()))
    for number, (held, holding) in enumerate(older):
        old, new = (programs.folder / f"{name}_{number}" for name in ("old", "new"))
        old.write_bytes(held)
        for words, before in (((), b""), (("--overwrite",), moments.randbytes(512 * 80))):
            if before:
                new.write_bytes(before)
            require_same(migrate(programs, old, new, *words), Said(0, "migrated 4\n", ""), f"a copy of {old.name}")
            require_made(programs, new, 4, holding, before)
        require_goes_on(programs, new, 4, holding)


def by_format(programs, moments):
    """`format` and `serve --format`: an empty ledger, of which what isn't its own keeps its bytes."""
    nothing = Holding(0, {}, frozenset())
    for slots in (1, 4, 100):
        for before in (b"", moments.randbytes(512 * 60)):
            path, other = (programs.folder / f"{name}_{slots}_{len(before)}" for name in ("ledger", "other"))
            for file in (path, other):
                if before:
                    file.write_bytes(before)
            words = ("--overwrite",) if before else ()
            said = programs.run(programs.derbyfig, "format", str(path), "--slots", str(slots), *words)
            require_same(said, Said(0, f"formatted {slots}\n", ""), "formatting")
            require_made(programs, path, slots, nothing, before)
            programs.require_formatted(other, slots, len(kept(path)) // 512, *words)
            require_made(programs, other, slots, nothing, before)
    shutil.copy(programs.folder / "ledger_1_0", programs.folder / "ledger")
    require_goes_on(programs, programs.folder / "ledger", 1, nothing)
