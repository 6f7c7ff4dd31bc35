"""The toolchain's checker, and how it is called on a crate of a tree whose libraries were built."""
import shutil
import subprocess
from functools import cache
from pathlib import Path

# What the checker reads of a crate.
PARTS = ("src", "specs", "proofs")


@cache
def kit():
    """The toolchain's folder."""
    told = subprocess.run(["rt", "doc"], check=True, capture_output=True, text=True)
    return Path(told.stdout.strip()).parent


@cache
def logic():
    """The name of the toolchain's logic."""
    told = subprocess.run(["rt", "version"], check=True, capture_output=True, text=True)
    return told.stdout.split("logic ")[1].strip()


def copy_crate(folder, to):
    """Copies what the checker reads of a crate."""
    for part in PARTS:
        if (folder / part).is_dir():
            shutil.copytree(folder / part, to / part)


@cache
def libraries_of(tree):
    """What each crate of a tree uses, by `crates.txt`."""
    used = {}
    for line in (tree / "crates.txt").read_text(encoding="utf-8").splitlines():
        if line.strip() and not line.startswith("#"):
            head, _, names = line.partition(":")
            used[head.split()[0]] = names.split()
    return used


def below(tree, crate):
    """The tree's own libraries below a crate, each after those that it uses."""
    used, found = libraries_of(tree), []
    for name in used[crate]:
        if name in used:
            found += [lower for lower in [*below(tree, name), name] if lower not in found]
    return found


def library(tree, name):
    """Where a tree's library stands once it is built."""
    return tree / "crates" / name / "out" / "rlib" / f"{name}.rlib"


def check_words(tree, crate, kept, aims):
    """The command that proves of a crate, in whose folder it is run, these functions alone, beside holes for the proofs of others,
    or all without any."""
    used, rlibs = libraries_of(tree), kit() / "rlibs"
    root = "main" if (tree / "crates" / crate / "src" / "main.rt").is_file() else "lib"
    words = [str(kit() / "bin" / "rattle"), "check", "--crate-name", crate, f"src/{root}.rt"]
    for name in ["std", *used[crate]]:
        words += ["--extern", f"{name}={library(tree, name) if name in used else rlibs / f'{name}.rlib'}"]
    for folder in [rlibs, *(library(tree, name).parent for name in below(tree, crate))]:
        words += ["-L", f"dependency={folder}"]
    logic = kit() / "rattle" / "logic" / "antt-project.json"
    words += ["--antt-project", str(logic), "--logic-built", str(kit() / "logic_built")]
    words += ["--links", f"{crate}=", "--jobs", "1", "--incremental", str(kept)]
    words += ["--allow-holes"] if aims else []
    for aim in aims:
        words += ["--only", aim]
    return words


def build_libraries(tree, crates):
    """Proves and builds what is below these crates, over what earlier checks of this tree kept."""
    wanted = dict.fromkeys(name for crate in crates for name in below(tree, crate))
    for name in wanted:
        subprocess.run(["rt", "lib"], cwd=tree / "crates" / name, check=True, stdout=subprocess.DEVNULL)
