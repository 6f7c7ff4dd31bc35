"""Work of a machine: a script's turns by turn_console, with a checkpoint in each eighth one."""
import dataclasses

import batches
from rounds import Mismatch, long_script, require

SLOTS = 8
SECTORS = 4 * SLOTS + 39
COUNT = 200

OPENING = b"open 3 000 100\nbalances\n"


@dataclasses.dataclass
class Turns:
    """So many turns behind those that the ledger holds; without `first` the ledger is made before."""

    count: int = COUNT
    first: int = None
    unheard: list = dataclasses.field(default_factory=list)

    name = "turns of a script"

    def prepare(self, machine, layout):
        """Nothing: the ledger is made within the work."""

    def work(self, machine, layout, preload, note):
        """Runs the script, and notes after each turn that is told how many were."""
        first = self.first or 0
        script, printed = long_script(first, self.count)
        self.unheard = [(first, batches.opened(first))]
        self.unheard += [(first + place + 1, told) for place, told in enumerate(printed)]
        if self.first is None:
            script = f"format {SLOTS}\n".encode() + script
            self.unheard.insert(0, (0, f"formatted {SLOTS}\n".encode()))
        machine.send("/tmp/script", script)
        machine.say(f"{preload}console --device {layout.path()} --sectors {SECTORS} < /tmp/script")
        while self.unheard:
            self.hear(machine, note)
            if self.unheard:
                machine.more()
        machine.ended()

    def hear(self, machine, note):
        """Notes what was told by now. It has to be what the script comes to."""
        while self.unheard and machine.read.startswith(self.unheard[0][1]):
            number, told = self.unheard.pop(0)
            machine.read = machine.read[len(told):]
            note(number)
        wanted = self.unheard[0][1] if self.unheard else b"done 0\n"
        require(wanted.startswith(machine.read[:len(wanted)]), f"other lines are printed: {machine.read[:200]!r}")

    def hear_rest(self, machine, note):
        """The same of a machine that is off."""
        machine.cut()
        self.hear(machine, note)

    def require_kept(self, ledgers, told):
        """That the ledger holds each turn that was told, and whole ones alone. How many it holds."""
        if not told:
            return None
        said = ledgers.said("ledger", OPENING)
        require(said.startswith(b"opened 3 next "), f"the ledger isn't opened: {said[:60]!r}")
        count = int(said.split()[3])
        require(said == batches.shown(count), f"the balances aren't those of {count} turns")
        require(count >= told[-1], f"{told[-1]} turns were told, and {count} are there")
        if count > (self.first or 0) + self.count:
            raise Mismatch(f"{count} turns are there, which nobody asked for")
        return count
