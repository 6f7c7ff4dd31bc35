"""Where an edit stands: the function that it changes, as the prover and as a reader names it.

The sources are in the formatter's layout, in which an item begins and ends at its own depth.
"""
import re
from dataclasses import dataclass

FUNCTION = re.compile(r"( *)(?:pub(?:\([\w: ]+\))? )?(?:const )?(?:unsafe )?fn (\w+)")
OWNER = re.compile(r"(?:unsafe )?(impl|(?:pub(?:\([\w: ]+\))? )?trait)\b")
ITEM = re.compile(r"(?:pub(?:\([\w: ]+\))? )?(?:const|static|struct|enum|trait|type|impl|mod) ?(?:<.*?> )?(\w+)")


@dataclass(frozen=True, order=True)
class Function:
    """A function: its module, and its owner and name as the prover writes them and as a reader does."""

    module: str
    path: str
    shown: str

    @property
    def aim(self):
        """The path below the crate by which the prover is asked for this function alone."""
        return f"{self.module}::{self.path}" if self.module else self.path


def module_of(file):
    """The module of a source, as `src/tests/day.rt` is `tests::day`, and of the root the empty one."""
    parts = file.removeprefix("src/").removesuffix(".rt").split("/")
    return "" if parts in (["lib"], ["main"]) else "::".join(parts)


def without_parameters(text):
    """The text without what stands between angle brackets."""
    while (shorter := re.sub(r"<[^<>]*>", "", text)) != text:
        text = shorter
    return text


def joined(type_name):
    """A type as it is part of the prover's name of an impl: `&'a Batch` is `RefBatch`, `io::Error` is `IoError`."""
    plain = re.sub(r"&(?:'\w+ )?(mut )?", lambda found: "RefMut " if found[1] else "Ref ", without_parameters(type_name))
    return "".join(word[:1].upper() + word[1:] for word in re.findall(r"\w+", plain))


def without_bounds(parameters):
    """The parameters of an `impl`, each by its name alone: `<D: Device<E>, F>` is `<D, F>`."""
    return re.sub(r":[^,>]*", "", "<" + without_parameters(parameters.strip()[1:-1]) + ">") if parameters.strip() else ""


def owner_of(header):
    """The owner that the head of an `impl` or a `trait` gives to its functions, for the prover and for a reader."""
    whole = " ".join(header.split())
    if not whole.startswith(("impl", "unsafe impl")):
        name = re.search(r"trait (\w+)", whole)[1]
        return name, name
    rest = whole[whole.index("impl") + 4 :]
    depth = 0
    for at, sign in enumerate(rest):
        depth += {"<": 1, ">": -1}.get(sign, 0) if rest[at - 1 : at] != "-" else 0
        if depth == 0 and sign != ">" and not (at == 0 and sign == "<"):
            break
    head = re.split(r" where | \{|$", rest[at:].strip())[0]
    plain = without_parameters(head)
    if " for " not in plain:
        return joined(head), plain.strip()
    trait_name, _, type_name = head.partition(" for ")
    own = re.findall(r"(?:^<|, )(\w+)", without_bounds(rest[:at]))
    trait_name = re.sub(r"<'\w+>$", "", trait_name)
    given = (word for words in re.findall(r"<(.*)>$", trait_name) for word in words.split(", "))
    parameters = "".join(joined(word) for word in given if word not in own)
    shown = re.sub(r"'\w+ ", "", without_parameters(type_name))
    last = without_parameters(trait_name).rpartition("::")[2]
    return joined(type_name) + last + parameters, f"<{shown} as {re.sub(r'<$', '', trait_name)}>"


def head_from(lines, start):
    """The head of an item that begins at this line, up to its opening brace."""
    head = []
    for line in lines[start:]:
        head.append(line)
        if line.rstrip().endswith("{"):
            break
    return " ".join(head)


def extent(lines, start, depth):
    """The number of the line that ends the item which begins at this line and depth."""
    for number in range(start, len(lines)):
        line = lines[number]
        if line.startswith(" " * depth) and line[depth:].rstrip() in ("}", "{}", ");", "};"):
            return number
        if number == start and line.rstrip().endswith((";", "}")):
            return number
    return len(lines) - 1


def home_of(type_name, crate, file):
    """The module that declares a type: functions of its own go by that one, wherever their `impl` stands."""
    declared = re.compile(rf"^(?:pub(?:\([\w: ]+\))? )?(?:struct|enum) {type_name}\b", re.MULTILINE)
    for source in [crate / file, *sorted((crate / "src").rglob("*.rt"))]:
        if declared.search(source.read_text(encoding="utf-8")):
            return module_of(source.relative_to(crate).as_posix())
    return module_of(file)


def alias_parameters(owner, source):
    """The parameters behind the owner's name as the prover writes them, if it is an alias that has some: `+F` of `On<F>`."""
    declared = re.search(rf"^(?:pub(?:\([\w: ]+\))? )?type {owner}<([\w, ]+)>", source, re.MULTILINE)
    return "".join(f"+{name.strip()}" for name in declared[1].split(",")) if declared else ""


def function_at(source, crate, file, at):
    """The function in which the text at this place stands, its contract included, or None outside of one."""
    lines = source.splitlines()
    line = source.count("\n", 0, at)
    for start in range(line, -1, -1):
        found = FUNCTION.match(lines[start])
        if found and extent(lines, start, len(found[1])) >= line:
            return named(lines, start, crate, file, found)
        if lines[start] and not lines[start][0].isspace() and lines[start][0] in "}" and start < line:
            return None
    return None


def path_at(crate, file, line):
    """The path below the crate of the function that this line of a source is part of, or None outside of one."""
    source = (crate / file).read_text(encoding="utf-8")
    at = sum(len(above) for above in source.splitlines(keepends=True)[: line - 1])
    function = function_at(source, crate, file, at)
    return function and function.aim


def named(lines, start, crate, file, found):
    """The function that begins at this line, by the owner in which it stands."""
    module, name = module_of(file), found[2]
    if not found[1]:
        return Function(module, name, name)
    for above in range(start, -1, -1):
        if OWNER.match(lines[above]):
            owner, shown = owner_of(head_from(lines, above))
            home = module if shown.startswith("<") else home_of(owner, crate, file)
            behind = alias_parameters(owner, "\n".join(lines))
            return Function(home, f"{owner}{behind}::{name}", f"{shown}::{name}")
    return Function(module, name, name)


def item_at(source, at):
    """The name of the item outside of any function in which the text at this place stands."""
    lines = source.splitlines()
    for start in range(source.count("\n", 0, at), -1, -1):
        if found := ITEM.match(lines[start]):
            return found[1]
    return "its file"
