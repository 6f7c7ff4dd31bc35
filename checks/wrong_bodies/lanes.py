"""Batches tried side by side, as many as there are processors and memory for, the longest first."""
import os
import subprocess
import tempfile
import threading
import time
from collections import defaultdict
from concurrent.futures import ThreadPoolExecutor
from contextlib import contextmanager
from pathlib import Path

from toolchain import below
from trials import Trial, Work

# What a check takes at most, in bytes.
MEMORY_OF_A_CHECK = 2_000_000_000

# How long to wait, in seconds, before looking again whether a library is built.
PAUSE = 2


def lanes():
    """How many checks may run at once."""
    with open("/proc/meminfo", encoding="ascii") as told:
        free = next(int(line.split()[1]) * 1024 for line in told if line.startswith("MemAvailable"))
    return max(1, min(len(os.sched_getaffinity(0)), free // MEMORY_OF_A_CHECK))


@contextmanager
def room_for_checks():
    """A folder, and a group of processes. However this program ends, the processes end and the folder goes."""
    room = tempfile.mkdtemp(prefix="wrong-bodies-")
    ends, held = os.pipe()
    guard = subprocess.Popen(
        ["sh", "-c", 'trap "" TERM; read _; kill -TERM 0; sleep 1; rm -rf "$0"; kill -9 0', room],
        stdin=ends, process_group=0)
    os.close(ends)
    try:
        yield Path(room), guard.pid
    finally:
        os.close(held)
        guard.wait()


class Queue:
    """Batches by crate. Whoever takes one gets its own crate's next, whose work it has kept, or one of the crate that has
    most left, the crates that stand on most first, among those whose libraries are built. A crate is begun by one alone, so
    that what all its edits need is proved once."""

    def __init__(self, batches, tree, progress, work):
        self.left, self.lock, self.tree, self.progress = defaultdict(list), threading.Lock(), tree, progress
        self.work, self.begun = work, set()
        for batch in batches:
            self.left[batch.crate].append(batch)

    def take(self, crate):
        """The next batch, best of this crate, or None at the end. It waits until there is one whose libraries are built."""
        while self.left:
            with self.lock:
                if batch := self.ready(crate):
                    return batch
            time.sleep(PAUSE)
        return None

    def ready(self, crate):
        """A batch that can be tried now, taken away, or None."""
        if not self.left.get(crate):
            free = [it for it in self.left if self.progress.has_built(below(self.tree, it)) and self.is_free(it)]
            crate = max(free, key=lambda it: (len(self.left[it]), len(below(self.tree, it))), default=None)
        if crate is None:
            return None
        self.begun.add(crate)
        batch = self.left[crate].pop(0)
        if not self.left[crate]:
            del self.left[crate]
        return batch

    def is_free(self, crate):
        """Whether nobody has begun a crate, or what was proved on the way to its first verdicts is there."""
        return crate not in self.begun or self.work.has(crate)


def try_all(batches, tree, progress, count, tell):
    """Tries all batches, so many at once, and tells each outcome as it comes."""
    telling = threading.Lock()
    with room_for_checks() as (room, group):
        work = Work(room / "work")
        queue = Queue(batches, tree, progress, work)

        def lane(number):
            folder, batch = room / str(number), queue.take(None)
            folder.mkdir()
            trial = Trial(tree, folder, group, work)
            while batch:
                for outcome in trial.outcomes(batch):
                    with telling:
                        tell(outcome)
                batch = queue.take(batch.crate)

        with ThreadPoolExecutor(count) as pool:
            for done in [pool.submit(lane, number) for number in range(count)]:
                done.result()
