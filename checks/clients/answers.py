"""Each answer that an office may give, and each cut: what the clients make of it, and what their states keep."""
import os

from fake import END, SILENCE, FakeOffice
from require import require, require_same
from runs import Client

# What answers a posting; the status; whether it stays begun.
ANSWERS = (
    ("posted 3 R", 0, False),
    ("refused Short R", 1, False),
    ("refused Reference R", 1, False),
    ("wrong bad number", 1, False),
    ("refused Unknown since 5 R", 4, True),
    ("refused Device R", 3, True),
    ("refused Faulted R", 3, True),
    ("refused Changed R", 3, True),
    ("undecided R", 3, True),
    ("closing", 3, True),
    ("wrong no hello", 3, True),
    ("posted 3 7", 3, True),
    ("refused Short 7", 3, True),
    (SILENCE, 3, True),
    (END, 3, True),
)

# What answers `last`; the reference of the state before; the references that follow, with `first` or without.
LAST = (
    ("last none", 0, False, 1),
    ("last none", 4, False, 5),
    ("last 9 3", 4, False, 10),
    ("last 9 3", 12, False, 13),
    ("last unknown since 5", 12, True, 13),
    ("last none", 1 << 32, True, (1 << 32) + 1),
    ("last none", (1 << 32) - 1, False, 1 << 32),
    ("last 9 3", (1 << 32) + 9, True, (1 << 32) + 10),
)


def new_counter(folder, name):
    counter = folder / name
    counter.mkdir()
    for pipe in ("in", "out"):
        os.mkfifo(counter / pipe)
    return counter


def post_until(client, answers, request):
    """A posting at an office that answers so. Where it is silent or ends, a client waits a little, and more each time until this
    is the last thing that it said: on a loaded machine one that waits a moment may not come so far."""
    is_cut = any(told in (SILENCE, END) for told in answers.values())
    for client.patience in (0.4, 2, 10, 50) if is_cut else (60,):
        with FakeOffice(client.folder, answers) as office:
            ran = client.post("deposit 1 5")
        if office.heard and office.heard[-1].startswith(request):
            break
    require(office.heard and office.heard[-1].startswith(request), f"{client.kind}: {answers}: {office.heard}, {ran.told}")
    client.patience = 60
    return ran


def answers_to_postings(folder, kind):
    """Each answer, and then the same words at an office that has posted it: once is enough."""
    for row, (told, status, stays) in enumerate(ANSWERS):
        what = f"{kind}: {told}"
        client = Client(kind, new_counter(folder, f"{kind}{row}"), folder / f"{kind}{row}.state")
        ran = post_until(client, {"last": "last none", "post": told}, "deposit 1 5 1")
        require_same(ran.status, status, f"{what}: the status, {ran.told}")
        require_same(ran.printed, "posted 3\n" if told == "posted 3 R" and kind == "python" else
                     told.replace("R", "1") + "\n" if status < 2 and kind == "shell" else "", f"{what}: what was printed")
        require_same(client.begun(), "deposit 1 5 1" if stays else "", f"{what}: what stays begun")
        with FakeOffice(client.folder, {"last": "last none", "post": "posted 3 R"}) as office:
            ran = client.post("deposit 1 5")
            said = [line for line in office.heard if line.startswith("deposit")]
        require_same(ran.status, 0, f"{what}: the status of the second run, {ran.told}")
        require_same(said, ["deposit 1 5 1" if stays else "deposit 1 5 2"], f"{what}: what was said again")
        require_same("before" in ran.told, stays, f"{what}: whether a repetition is told, {ran.told}")


def answers_to_last(folder, kind):
    """With which reference a client goes on."""
    for row, (told, reference, is_first, then) in enumerate(LAST):
        what = f"{kind}: {told} with {reference}"
        client = Client(kind, new_counter(folder, f"{kind}_last{row}"), folder / f"{kind}_last{row}.state")
        client.state.write_text(f"{reference}\n\n")
        with FakeOffice(client.folder, {"last": told, "post": "posted 3 R"}) as office:
            ran = client.post("deposit 1 5")
        require_same(ran.status, 0, f"{what}: {ran.told}")
        wanted = ["name", "last", *([f"first {then}"] if is_first else []), f"deposit 1 5 {then}"]
        require_same(office.heard[1:], wanted, f"{what}: what was said")


def cuts(folder, kind):
    """An office that is silent, or ends, at each request: nothing is posted, and the posting isn't begun."""
    for row, (request, cut) in enumerate((request, cut) for request in ("hello", "name", "last") for cut in (SILENCE, END)):
        what = f"{kind}: {'silence' if cut is SILENCE else 'an end'} at {request}"
        client = Client(kind, new_counter(folder, f"{kind}_cut{row}"), folder / f"{kind}_cut{row}.state")
        ran = post_until(client, {"last": "last none", request: cut}, request)
        require_same((ran.status, client.begun()), (3, ""), f"{what}: {ran.told}")


def keys(folder, kind):
    """The same key is the same posting, another key another one; a refused one's key is free."""
    client = Client(kind, new_counter(folder, f"{kind}_keys"), folder / f"{kind}_keys.state")
    rows = (
        ("deposit 1 5", "a", "posted 3 R", 0, "deposit 1 5 1"),
        ("deposit 1 5", "a", None, 0, None),
        ("deposit 1 6", "a", None, 2, None),
        ("deposit 1 5", "b", "closing", 3, "deposit 1 5 2"),
        # the client in Python first settles what was begun
        *([("deposit 1 6", "b", None, 2, None)] if kind == "shell" else []),
        ("deposit 1 5", "b", "posted 4 R", 0, "deposit 1 5 2"),
        ("deposit 1 5", "b", None, 0, None),
        ("deposit 1 5", "c", "refused Short R", 1, "deposit 1 5 3"),
        ("deposit 1 6", "c", "posted 5 R", 0, "deposit 1 6 4"),
        ("deposit 1 6", "", "closing", 3, "deposit 1 6 5"),
        ("deposit 1 6", "d", "posted 6 R", 0, "deposit 1 6 5"),
        ("deposit 1 6", "d", None, 0, None),
    )
    for row, (entry, key, told, status, said) in enumerate(rows):
        what = f"{kind}, keys, row {row}"
        with FakeOffice(client.folder, {"last": "last none", "post": told or "closing"}) as office:
            ran = client.post(entry, key)
        require_same(ran.status, status, f"{what}: {ran.told}")
        require_same([line for line in office.heard if line.startswith("deposit")], [said] if said else [], f"{what}: what was said")


def other_states(folder, kind):
    """One counter has one state, until another one takes it over."""
    counter = new_counter(folder, f"{kind}_states")
    one, other = (Client(kind, counter, folder / f"{kind}_{name}.state") for name in ("one", "other"))
    with FakeOffice(counter, {"last": "last none", "post": "posted 3 R"}) as office:
        require_same(one.post("deposit 1 5").status, 0, f"{kind}: the first state")
        heard = len(office.heard)
        ran = other.post("deposit 1 5")
        require_same((ran.status, len(office.heard)), (2, heard), f"{kind}: another state: {ran.told}")
        require("another state" in ran.told, f"{kind}: {ran.told}")
        require_same(other.post("deposit 1 5", takes_over=True).status, 0, f"{kind}: the other one takes over")
        require_same(one.post("deposit 1 5").status, 2, f"{kind}: the first one is another one now")


def other_counters(folder, kind):
    """A state is of one counter of one ledger, as its office tells: at another one nothing is posted, and the counter stays
    free for its own state."""
    names = ("name north 42", "name north 43", "name south 42", "refused Closed")
    for row, told in enumerate(names):
        what = f"{kind}: {told}"
        one, two = (new_counter(folder, f"{kind}_names{row}_{place}") for place in ("one", "two"))
        state = folder / f"{kind}_names{row}.state"
        with FakeOffice(one, {"last": "last none", "post": "closing", "name": names[0]}):
            require_same(Client(kind, one, state).post("deposit 1 5").status, 3, f"{what}: the first counter")
        with FakeOffice(two, {"last": "last none", "post": "posted 3 R", "name": told}) as office:
            ran = Client(kind, two, state).post("deposit 1 5")
            said = [line for line in office.heard if line.startswith("deposit")]
            if row > 0:
                require_same((ran.status, said), (3 if row == 3 else 2, []), f"{what}: {ran.told}")
                require("42" in ran.told or row == 3, f"{what}: {ran.told} doesn't tell which counter it is of")
                require_same(Client(kind, two, folder / f"{kind}_own{row}.state").post("deposit 1 5").status, 3 if row == 3 else 0,
                             f"{what}: the counter's own state")
            else:
                require_same((ran.status, said), (0, ["deposit 1 5 1"]), f"{what}: {ran.told}")
        if told.startswith("name"):
            with FakeOffice(two, {"last": "last none", "post": "posted 3 R", "name": told}) as office:
                require_same(Client(kind, two, state).post("deposit 1 5", takes_over=True).status, 0, f"{what}: it takes over")
                require_same(Client(kind, two, state).post("deposit 1 5").status, 0, f"{what}: the counter is its own now")


def offices_of_before(folder, kind):
    """An office that knows no name: its counters are used as before."""
    counter = new_counter(folder, f"{kind}_before")
    client = Client(kind, counter, folder / f"{kind}_before.state")
    for told in ("posted 3 R", "posted 4 R"):
        with FakeOffice(counter, {"last": "last none", "post": told, "name": "wrong unknown command"}):
            require_same(client.post("deposit 1 5").status, 0, f"{kind}: an office of before, {told}")


def bad_states(folder, kind):
    """A state that can't be read or written: nothing is said, and it stays as it is."""
    counter = new_counter(folder, f"{kind}_bad")
    for name, held in (("empty", ""), ("half", "7"), ("words", "deposit 1 5\n7\n"), ("folder", None), ("nowhere/state", None)):
        state = folder / f"{kind}_{name}"
        if held is not None:
            state.write_text(held)
        elif name == "folder":
            state.mkdir()
        with FakeOffice(counter, {"last": "last none", "post": "posted 3 R"}) as office:
            ran = Client(kind, counter, state).post("deposit 1 5")
        require_same((ran.status, office.heard), (5, []), f"{kind}: a state that is {name}: {ran.told}")
        require(name in ran.told, f"{kind}: {ran.told} doesn't name {name}")
        require(held is None or state.read_text() == held, f"{kind}: the state {name} was changed")


CASES = (answers_to_postings, answers_to_last, cuts, keys, other_states, other_counters, offices_of_before, bad_states)
