"""The first file system of a machine: busybox, kernel modules with what they need, programs with their libraries, and an
agent that runs what the host says. It is written here, so that no root, no `cpio` and no `depmod` is needed."""
import lzma
import pathlib
import re
import subprocess

# What any machine needs, and what is a module of some kernels.
MODULES = ("virtio_pci", "virtio_blk", "virtio_console", "xfs")

# The agent: the host says shell commands, a line each, on the port `agent`, and hears what they print and how they ended.
# A port can be opened once.
INIT = """#!/bin/busybox sh
/bin/busybox --install -s /bin
export PATH=/bin:/sbin
mkdir -p /proc /sys /dev /mnt /tmp
mount -t proc none /proc; mount -t sysfs none /sys; mount -t devtmpfs none /dev
while read -r module; do insmod "/modules/$module" || echo "no module $module"; done < /modules/order
names() {
    for port in /sys/class/virtio-ports/*; do
        if read -r name < "$port/name"; then ln -sf "/dev/${port##*/}" "/dev/$name"; fi
    done 2> /dev/null
    while read -r name; do [ -e "/dev/$name" ] || return 1; done < /ports
}
until names; do sleep 0.05; done
exec 0<> /dev/agent 1>&0
echo ready
while read -r line; do eval "$line" 2>&1; echo "done $?"; done
poweroff -f
"""


class Archive:
    """A cpio archive of the format newc."""

    def __init__(self):
        self.pieces, self.count, self.folders = [], 0, set()

    def add(self, name, data, mode):
        self.count += 1
        fields = [self.count, mode, 0, 0, 1, 0, len(data), 0, 0, 0, 0, len(name) + 1, 0]
        head = b"070701" + b"".join(b"%08X" % field for field in fields) + name.encode() + b"\0"
        self.pieces += [head, bytes(-len(head) % 4), data, bytes(-len(data) % 4)]

    def file(self, name, data):
        """Adds a program, and the folders that it lies in."""
        for parent in reversed(pathlib.PurePosixPath(name).parents[:-1]):
            if parent not in self.folders:
                self.folders.add(parent)
                self.add(str(parent), b"", 0o040755)
        self.add(name, data, 0o100755)

    def bytes(self):
        self.add("TRAILER!!!", b"", 0)
        return b"".join(self.pieces)


def module_bytes(path):
    data = path.read_bytes()
    return lzma.decompress(data) if path.suffix == ".xz" else data


def modules_of(folder, names):
    """The modules of these names and all they need, what is needed first. A module that isn't there is built in."""
    files = {path.name.split(".ko")[0].replace("-", "_"): path for path in folder.rglob("*.ko*")}
    order = {}

    def need(name):
        name = name.replace("-", "_")
        if name in order or name not in files:
            return
        data = module_bytes(files[name])
        for other in re.search(rb"depends=([^\0]*)", data)[1].decode().split(","):
            need(other)
        order[name] = data

    for name in names:
        need(name)
    return order


def libraries_of(program):
    """The files of the libraries that a program asks for."""
    told = subprocess.run(["ldd", program], capture_output=True, text=True, check=False).stdout
    return re.findall(r"(/\S+) \(0x", told)


def make(target, ports, kernel_modules, busybox, files, modules=MODULES):
    """Writes the file. `files` names what lies at each path; programs bring their libraries. The agent waits for ports."""
    archive = Archive()
    archive.file("init", INIT.encode())
    archive.file("ports", "".join(f"{name}\n" for name in ports).encode())
    order = modules_of(kernel_modules, modules)
    for name, data in order.items():
        archive.file(f"modules/{name}.ko", data)
    archive.file("modules/order", "".join(f"{name}.ko\n" for name in order).encode())
    placed = {"bin/busybox": busybox, **files}
    libraries = sorted({library for path in files.values() for library in libraries_of(path)})
    placed |= {library.lstrip("/"): library for library in libraries}
    for name, path in placed.items():
        archive.file(name, pathlib.Path(path).read_bytes())
    target.write_bytes(archive.bytes())
