"""A Debian with systemd, in namespaces of its own: its start, its end, and what is typed there."""
import pathlib
import shlex
import subprocess
import time

from rounds import require

HERE = pathlib.Path(__file__).parent

# How many seconds anything may take.
PATIENCE = 300

# What a user who typed a command has, root among them.
AS_ROOT = ("env", "-i", "-C", "/root", "HOME=/root", "TERM=dumb", "PATH=/usr/sbin:/usr/bin:/sbin:/bin")


class System:
    """The system whose files lie in a folder, on from its start to its end."""

    def __init__(self, tree: pathlib.Path, cgroup: pathlib.Path):
        self.tree, self.cgroup, self.run, self.init = tree, cgroup, None, ""

    def start(self):
        """Starts it, and waits until all that is started with it is there."""
        words = ["sh", HERE / "start.sh", self.tree, self.cgroup]
        self.run = subprocess.Popen(words, stdin=subprocess.DEVNULL, stdout=subprocess.DEVNULL)
        children = pathlib.Path(f"/proc/{self.run.pid}/task/{self.run.pid}/children")
        self.await_true(lambda: self.child(children), "no init runs")
        self.until("systemctl is-system-running", lambda told: told in ("running", "degraded"), "it doesn't come up")

    def child(self, children):
        require(self.run.poll() is None, f"the system ended as {self.run.poll()}")
        self.init = children.read_text(encoding="ascii").strip()
        return self.init != "" and pathlib.Path(f"/proc/{self.init}/comm").read_text(encoding="ascii") == "systemd\n"

    def end(self):
        """Ends all of it at once."""
        if self.run is not None:
            (self.cgroup / "cgroup.kill").write_text("1", encoding="ascii")
            self.run.wait()
            events = self.cgroup / "cgroup.events"
            self.await_true(lambda: "populated 0" in events.read_text(encoding="ascii"), "a part of the system goes on")
            for folder in sorted(self.cgroup.rglob("*/"), reverse=True):
                folder.rmdir()
            self.run = None

    def send(self, path, text):
        (self.tree / path.lstrip("/")).write_text(text, encoding="utf-8")

    def outcome(self, command, user="root"):
        """How a command ends that a user types at home, and all that it prints."""
        words = ["bash", "-c", command] if user == "root" else ["runuser", "-l", user, "-c", command]
        done = subprocess.run(["nsenter", "-t", self.init, "-a", *AS_ROOT, *words], stdin=subprocess.DEVNULL, text=True,
                              stdout=subprocess.PIPE, stderr=subprocess.STDOUT, check=False, timeout=PATIENCE)
        return done.returncode, done.stdout

    def ask(self, command, user="root"):
        """What a command prints, which has to end well."""
        status, told = self.outcome(command, user)
        require(status == 0, f"{user}: {command}: status {status}: {told[-1500:]}")
        return told

    @staticmethod
    def await_true(holds, missing):
        """Looks again and again until it is so."""
        end = time.monotonic() + PATIENCE
        while not holds():
            require(time.monotonic() < end, missing)
            time.sleep(0.02)

    def until(self, command, holds, missing):
        """Asks again and again until the answer is as it has to be."""
        self.await_true(lambda: holds(self.outcome(command)[1].strip()), f"{missing}: {shlex.quote(command)}")

    def reboot(self):
        """Lets systemd end all, and starts it again."""
        self.outcome("systemctl reboot")
        self.run.wait(PATIENCE)
        self.end()
        self.start()

    def cut(self):
        """Ends all of it at once, and starts it again."""
        self.end()
        self.start()
