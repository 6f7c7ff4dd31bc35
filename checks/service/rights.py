"""Who may post, and who may read or change the files of an office."""
from rounds import require
from starts import held, is_open, say, shown

NORTH = "/run/derbyfig/book/north"
POSTS = f"derbyfig-counter -s north.state {NORTH} deposit 1 7"

# What is kept, and ways to read, write, cut, remove or rename a file, or to make one beside it.
KEPT = "/var/lib/derbyfig"
WAYS = ("cat {}", "echo x >> {}", "truncate -s 0 {}", "rm -f {} && test ! -e {}", "mv {} /tmp/taken", "touch {}.other",
        "ln {} /tmp/linked", "chmod 777 {}")

# The ledger, its counters, a file of the archive, and a copy.
NAMES = ("book.ledger", "book.ledger.counters", f"book.books/{0:020}", f"book.copies/{3:020}")

# What isn't for whoever posts at a counter.
RUNNING = (f"touch {NORTH}/other", f"mv {NORTH}/in {NORTH}/gone", f"rm -f {NORTH}/lock && test ! -e {NORTH}/lock",
           "touch /run/derbyfig/book/other", "ls /run/derbyfig/book/control", "echo close > /run/derbyfig/book/control/in",
           "derbyfig status /run/derbyfig/book/control", "derbyfig close /run/derbyfig/book/control",
           "derbyfig-counter /run/derbyfig/book/control close", f"ls {KEPT}", "echo > /etc/derbyfig/book")

# Runs each line of a file, and prints those that end well.
TRY = """while read -r line; do
    if (eval "$line") > /dev/null 2>&1 < /dev/null; then echo "$line"; fi
done < /tmp/tries
"""


def sums(system):
    return system.ask(f"cd {KEPT} && find . -type f | sort | xargs sha256sum; ls -lR {KEPT} /run/derbyfig /etc/derbyfig")


def a_member_posts(system):
    """A member of the group posts at a counter where root did, once it takes that over."""
    system.ask("useradd -m clerk && usermod -a -G derbyfig clerk && useradd -m stranger")
    status, told = system.outcome(POSTS, "clerk")
    require(status == 2 and "another state is used there" in told, f"a second state ends as {status}: {told}")
    told = system.ask(POSTS.replace("-s", "-f -s"), "clerk")
    require(told.startswith("posted 2 "), f"the posting is answered {told!r}")
    require(held(system, 1) == 507, "account 1 holds something else")
    return f"{told.strip()!r}, behind -f, since root had posted there"


def a_stranger_is_kept_off(system):
    """Another user can't post, nor say anything else."""
    for command in (POSTS, f"derbyfig-counter {NORTH} balance 1", f"echo close > {NORTH}/in", f"derbyfig close {NORTH}",
                    f"derbyfig status {NORTH}", "ls /run/derbyfig/book"):
        status, told = system.outcome(command, "stranger")
        require(status != 0 and "posted" not in told, f"a stranger's {command}: status {status}: {told}")
    require(held(system, 1) == 507, "account 1 holds something else")
    return "no posting, no question, no close"


def kept_from_clients(system):
    """Neither can read, write, cut, remove or rename what is kept, or speak at control."""
    require(say(system, "book/north", "archive", "copy") == ["archived 3", "copied 3"], "no archive or copy is made")
    files, before = system.ask(f"find {KEPT} -type f | sort").split(), sums(system)
    require({f"{KEPT}/{name}" for name in NAMES} <= set(files), f"what is kept is {files}")
    tries = [way.replace("{}", file) for file in files for way in WAYS] + list(RUNNING)
    system.send("/tmp/tries", "".join(f"{command}\n" for command in tries))
    system.send("/tmp/try", TRY)
    for user in ("clerk", "stranger"):
        done = system.ask("bash /tmp/try", user)
        require(done == "", f"{user} can do this: {done}")
    require(sums(system) == before, "something of it was changed")
    require(is_open(system, "book"), "the office doesn't answer any more")
    return f"{len(tries)} tries of a member and of a stranger on {len(files)} files, the counter's folder and control failed"


def a_member_closes(system):
    """Any client may say close, and the office stays closed until it is started."""
    told = system.ask("derbyfig-counter /run/derbyfig/book/south close", "clerk")
    require(told == "closing\n", f"the answer is {told!r}")
    system.until("systemctl is-active derbyfig@book", lambda told: told == "inactive", "the office goes on")
    require(shown(system, "book", "Result") == "success", "the end isn't a success")
    system.ask("systemctl start derbyfig@book")
    require(held(system, 1) == 507, "account 1 holds something else")
    return "the office was closed, and stayed so until systemctl start"


CASES = (a_member_posts, a_stranger_is_kept_off, kept_from_clients, a_member_closes)
