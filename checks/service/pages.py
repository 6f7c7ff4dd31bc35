"""The other commands and clients of the documents, with the package alone."""
from rounds import require
from starts import block, held


def the_first_posting(system):
    """The commands of docs/INSTALL.md, by a user who isn't in the group."""
    format_, serve = block("docs/INSTALL.md", "derbyfig serve office.ledger --terminal").splitlines()
    system.ask(format_, "stranger")
    told = system.ask(f"printf 'deposit 1 500\\nclose\\n' | {serve}", "stranger")
    require("posted 0 0\n" in told and "closing\n" in told, f"the office tells {told}")
    return "derbyfig format, serve --terminal: posted 0 0"


def the_client_of_the_shell(system):
    """The loop of docs/FORMATS.md, at a counter of the service, by a member of the group."""
    system.send("/home/clerk/until_posted.sh", block("docs/FORMATS.md", "until derbyfig-counter"))
    before = held(system, 1)
    system.ask("ln -s /run/derbyfig/book/south south", "clerk")
    first = system.ask("sh until_posted.sh south morning 2> told", "clerk")
    again = system.ask("sh until_posted.sh south morning 2> told", "clerk")
    require(first.startswith("posted ") and again == first, f"it is told {first!r} and {again!r}")
    require(held(system, 1) == before + 500, "account 1 holds something else")
    return f"{first.strip()!r}, twice with one key, posted once"


def the_client_of_python(system):
    """The same by the client for Python."""
    system.send("/home/clerk/until_posted.py", block("docs/FORMATS.md", "with Counter(folder"))
    before = held(system, 1)
    typed = "PYTHONPATH=/usr/share/derbyfig python3 until_posted.py south evening"
    told = [system.ask(typed, "clerk") for _ in range(2)]
    require(told[0].startswith("posted ") and told[1] == told[0], f"it is told {told}")
    require(held(system, 1) == before + 500, "account 1 holds something else")
    return f"{told[0].strip()!r}, twice with one key, posted once"


CASES = (the_first_posting, the_client_of_the_shell, the_client_of_python)
