"""Clients that are killed at each call by which they touch a file or a pipe, or refused that call for want of room: what they
began stands once."""
import os
import subprocess
import time

from answers import new_counter
from require import require, require_same
from runs import Client

# More calls than a client makes.
MOST = 100


class Office:
    """An office of the program, at one counter."""

    def __init__(self, program, folder):
        self.counter = new_counter(folder, "counter")
        self.process = subprocess.Popen([program, "serve", folder / "ledger", "--format", "1000", "--counter", self.counter],
                                        stdout=subprocess.PIPE, text=True)
        require(self.process.stdout.readline().startswith("formatted"), "no office")
        require(self.process.stdout.readline().startswith("opened"), "no office")
        self.program = program

    def balances(self, ledger):
        """What each account holds, of the office that is closed."""
        subprocess.run([self.program, "close", self.counter], check=True, stdout=subprocess.DEVNULL)
        self.process.wait()
        lines = subprocess.run([self.program, "balances", ledger, "--as", "csv"], check=True, capture_output=True, text=True)
        return {row.split(",")[0]: int(row.split(",")[1]) for row in lines.stdout.splitlines()[1:-1]}


def cut(client, entry, key, at, folder, fails):
    """A run that is cut at that call, and how many calls it made."""
    count = folder / "count"
    count.unlink(missing_ok=True)
    cuts = {"LD_PRELOAD": str(folder / "ends.so"), "CUT_UNDER": str(client.folder.parent), "CUT_COUNT": str(count), "CUT_AT": str(at)}
    ran = client.post(entry, key, environment={**cuts, **({"CUT_FAILS": "yes"} if fails else {})})
    return ran, count.stat().st_size if count.exists() else 0


def settle(client, entry, key):
    """Says it until it is answered."""
    for _ in range(100):
        ran = client.post(entry, key)
        if ran.status != 3:
            return ran
        time.sleep(0.01)
    return ran


def each_call(office, folder, kind, key, fails, account):
    """Cuts a posting to each account at one call more than the one before, and repeats it; the next free account."""
    for at in range(1, MOST):
        what = f"{kind}, {'refused' if fails else 'killed'} at call {at}{' with a key' if key else ''}"
        client = Client(kind, office.counter, office.counter.parent / f"{account}.state", 20)
        (office.counter / "lock").unlink(missing_ok=True)
        entry = f"deposit {account} 1"
        ran, calls = cut(client, entry, key, at, folder, fails)
        is_answered = ran.printed.startswith("posted")
        if calls < at:
            require_same(ran.status, 0, f"{what}: {ran.told}")
            require(at > 12, f"{what}: so few calls")
            return account + 1
        require(is_answered or ran.status != 0, f"{what}: status 0 without an answer")
        require(not fails or client.state.exists() or not (client.state.parent / f"{account}.state.new").exists()
                or ran.status != 0, f"{what}: {ran.told}")
        if not is_answered or key:
            ran = settle(client, entry, key)
            require_same(ran.status, 0, f"{what}: the second run, {ran.told}")
        account += 1
    require(False, f"{kind}: more than {MOST} calls")


def kills(program, folder):
    held = folder / "held"
    held.mkdir()
    office = Office(program, held)
    account = 1
    for kind in ("shell", "python"):
        for key, fails in (("", False), ("invoice 31", False), ("", True)):
            account = each_call(office, folder, kind, key, fails, account)
    balances = office.balances(held / "ledger")
    for number in range(1, account):
        require_same(balances.get(str(number)), 1, f"account {number}: a posting stands so often")
    return account - 1
