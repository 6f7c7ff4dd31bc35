"""Starts that have to fail."""
from rounds import require
from starts import is_open, shown

LEDGER = "/var/lib/derbyfig/torn.ledger"


def an_office_without_settings(system):
    """A mistyped name starts nothing, and makes nothing."""
    status, told = system.outcome("systemctl start derbyfig@nosuch")
    require(status != 0 and "derbyfig@nosuch" in told, f"status {status}: {told}")
    made = system.ask("find /var/lib/derbyfig /run/derbyfig /etc/derbyfig -name 'nosuch*'")
    require(made == "", f"it makes {made}")
    return f"status {status}, {told.splitlines()[0]!r}, and no file"


def change_byte(system, octal):
    system.ask(f"printf '\\{octal}' | dd of={LEDGER} bs=1 seek=5 conv=notrunc status=none")


def a_damaged_ledger(system):
    """Its start fails, isn't made again and again, and the journal tells why. Mended, it starts."""
    system.ask("echo 'COUNTERS=one SLOTS=64' > /etc/derbyfig/torn && systemctl start derbyfig@torn")
    system.ask("systemctl stop derbyfig@torn")
    change_byte(system, "11")
    status, told = system.outcome("systemctl start derbyfig@torn")
    require(status != 0 and "derbyfig@torn" in told, f"the start ends as {status}: {told}")
    state = [shown(system, "torn", what) for what in ("ActiveState", "SubState", "NRestarts", "ExecMainStatus")]
    require(state == ["failed", "failed", "0", "1"], f"systemd tells {state}")
    why = [line for line in system.ask("journalctl -o cat -u derbyfig@torn").splitlines() if line.startswith(LEDGER)]
    require(why, "the journal doesn't tell why")
    change_byte(system, "3")
    system.ask("systemctl start derbyfig@torn")
    require(is_open(system, "torn"), "the mended ledger isn't opened")
    system.ask("systemctl stop derbyfig@torn")
    return f"status {status}, failed, no restart; journalctl: {why[-1]!r}"


CASES = (an_office_without_settings, a_damaged_ledger)
