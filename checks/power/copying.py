"""Work of a machine: copies of a ledger by `derbyfig copy`, and of older ones by `derbyfig migrate`, one after another."""
import dataclasses

import copies
from rounds import require

COUNT = 24

OPENING = b"open 2 00 10\nbalances\n"

# What the ledger holds that is copied: three turns, one of them behind a checkpoint, and a sealed account.
SCRIPT = (b"format 2\nopen 2 00 10\npost 0 deposit 7 70\nturn 0\npost 1 deposit 1024 5\npost 1 seal 7\nturn 1\n"
          b"post 0 transfer 1024 3 2\nturn 0\n")

# Where each kind comes from, the command, what opening and balances of its copies print.
KINDS = {
    "copied": ("ledger", "copy", b"opened 2 next 3 total 75\naccount 3 2\naccount 7 70\naccount 1024 3\ntotal 75\n"),
    "first": ("first", "migrate", b"opened 2 next 1 total 500\naccount 1 500\ntotal 500\n"),
    "second": ("second", "migrate", b"opened 2 next 2 total 10\naccount 1 10\ntotal 10\n"),
}


@dataclasses.dataclass
class Copying:
    """So many copies to new files, of each kind in turn."""

    count: int = COUNT

    name = "copies and migrations"

    def prepare(self, machine, layout):
        """Makes the ledgers that are copied."""
        machine.send("/tmp/script", SCRIPT)
        machine.ask(f"console --device {layout.path()} --sectors 47 < /tmp/script")
        machine.send(layout.path("first"), copies.first_layout())
        machine.send(layout.path("second"), copies.second_layout())

    def work(self, machine, layout, preload, note):
        """Makes one copy after the other, and notes the name of each that is told as made."""
        for number in range(self.count):
            kind = list(KINDS)[number % len(KINDS)]
            source, command, _ = KINDS[kind]
            name, slots = f"{kind}_{number}", 1 + number % 9
            asked = f"{command} {layout.path(source)} {layout.path(name)} --slots {slots}"
            told = machine.ask(f"{preload}derbyfig {asked}")
            wanted = f"{'copied' if command == 'copy' else 'migrated'} {slots}\n".encode()
            require(told == wanted, f"{asked}: {told!r}")
            note(name)

    def hear_rest(self, machine, note):
        """Nothing more is heard of a machine that is off."""
        machine.cut()

    def require_kept(self, ledgers, told):
        """That what was copied is there: of what was told the last ones, and one from between. How many were told."""
        for name in dict.fromkeys([*told[-2:], *told[len(told) // 2:][:1]]):
            said = ledgers.said(name, OPENING, by="derbyfig")
            wanted = KINDS[name.split("_")[0]][2]
            require(said == wanted, f"what was told as {name.split('_')[0]} opens as {said[:100]!r}")
        return len(told)
