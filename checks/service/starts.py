"""The package is installed as docs/INSTALL.md says, an office is started, and its main process killed."""
import pathlib
import time

from documents import blocks
from rounds import require

HERE = pathlib.Path(__file__).parent

# What an office answers at a counter to some lines, one after another: FOLDER LINE..
SAY = """exec 9>> "$1/lock" 3<> "$1/in" 4<> "$1/out"
flock 9
printf '%s\\n' ' ?' 'hello 77' >&3
until read -r answer <&4 && [ "$answer" = 'hello 77' ]; do :; done
for line in "${@:2}"; do
    echo "$line" >&3 && read -r answer <&4 && echo "$answer"
done
"""


def block(document, words):
    """The one block of a document that has these words in it."""
    text = (HERE.parent.parent / document).read_text(encoding="utf-8")
    found = [body for _, _, body in blocks(text) if words in body]
    require(len(found) == 1, f"{document}: {len(found)} blocks have {words!r}")
    return found[0]


def say(system, counter, *lines):
    """The answers to some lines at a counter of the office `book`."""
    quoted = " ".join(f"'{line}'" for line in lines)
    return system.ask(f"bash /root/say /run/derbyfig/{counter} {quoted}").splitlines()


def held(system, account, counter="book/north"):
    """What an account holds."""
    return int(say(system, counter, f"balance {account}")[0].split()[2])


def shown(system, name, what):
    """A property of an office's unit, as systemd tells it."""
    return system.ask(f"systemctl show --value -p {what} derbyfig@{name}").strip()


def is_open(system, name):
    """Whether the office answers."""
    return system.outcome(f"derbyfig status /run/derbyfig/{name}/control")[0] == 0


def closed_at(system, name):
    """The line of the counters' file that tells how an office left its ledger."""
    return system.ask(f"grep -E '^(open|closed|script)' /var/lib/derbyfig/{name}.ledger.counters").strip()


def a_fresh_system(system):
    """What it is, and that nothing of ours is there."""
    require(system.outcome("command -v derbyfig")[0] != 0 and system.outcome("id derbyfig")[0] != 0, "derbyfig is there")
    version, init = system.ask("cat /etc/debian_version").strip(), system.ask("systemctl --version").split()[1]
    system.send("/root/say", SAY)
    return f"Debian {version}, systemd {init}, Linux {system.ask('uname -r').strip()}"


def the_walk_of_install(system):
    """The commands are typed as they stand. Only the package is made before."""
    first, *rest = block("docs/INSTALL.md", "apt install ./derbyfig.deb").splitlines()
    require(first == "make deb", f"INSTALL.md begins with {first!r}")
    for line in rest:
        told = system.ask(line)
    require(told == "posted 0 1\n", f"the posting was answered {told!r}")
    require(is_open(system, "book"), "the office doesn't answer at control")
    return "apt install, systemctl enable --now, posted 0 1"


def a_start(system):
    """It returns once the office answers."""
    took = []
    for _ in range(3):
        system.ask("systemctl stop derbyfig@book")
        begin = time.monotonic()
        system.ask("systemctl start derbyfig@book")
        took.append(time.monotonic() - begin)
        require(is_open(system, "book"), "the start returned before the office answers")
    return f"systemctl start returned after {', '.join(f'{seconds:.1f}' for seconds in took)} s, and the office answered"


def a_kill(system):
    """An office whose main process is killed comes back, with what was posted, and posts no repetition."""
    posted = say(system, "book/south", "deposit 2 70 1")
    killed = shown(system, "book", "MainPID")
    begin = time.monotonic()
    system.ask(f"kill -9 {killed}")
    system.until("derbyfig status /run/derbyfig/book/control > /dev/null && systemctl show --value -p MainPID derbyfig@book",
                 lambda told: told.isdigit() and told not in ("0", killed), "the office doesn't come back")
    took = time.monotonic() - begin
    require(say(system, "book/south", "deposit 2 70 1") == posted, "the repetition is answered otherwise")
    require((held(system, 1), held(system, 2)) == (500, 70), "the accounts hold something else")
    return f"behind kill -9 it answered within {took:.1f} s; the repetition was answered {posted[0]!r} as before"


CASES = (a_fresh_system, the_walk_of_install, a_start, a_kill)
