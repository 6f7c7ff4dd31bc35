"""Prints what a shell completes behind `derbyfig`, by what the program's own help says of its commands and options.

    python3 install/completions.py bash|zsh|fish DERBYFIG
"""
import argparse
import dataclasses
import re
import subprocess

OPTION = re.compile(r" +(?:-(?P<short>\w), )?--(?P<name>[\w-]+)(?: <(?P<value>[^>]+)>)? *(?P<help>.*)")
COMMAND = re.compile(r" +(?P<name>[a-z]+) +(?P<help>\S.*)")
CHOICES = re.compile(r"\[possible values: ([^]]+)]")
NOTES = re.compile(r" *\[[^]]*]")


@dataclasses.dataclass(frozen=True)
class Option:
    name: str
    short: str
    # what help calls the value, if there is one
    value: str
    # the values that there are, if it is one of a few
    choices: tuple
    help: str

    @property
    def words(self):
        return [f"--{self.name}"] + ([f"-{self.short}"] if self.short else [])


@dataclasses.dataclass(frozen=True)
class Command:
    name: str
    help: str
    options: tuple


def section(told, heading):
    """The lines behind a heading, up to the next empty line."""
    lines = told.splitlines()
    if heading not in lines:
        return []
    behind = lines[lines.index(heading) + 1:]
    return behind[:behind.index("")] if "" in behind else behind


def option_of(line):
    found = OPTION.fullmatch(line)
    choices = CHOICES.search(found["help"])
    return Option(found["name"], found["short"] or "", found["value"] or "",
                  tuple(choices[1].split(", ")) if choices else (), NOTES.sub("", found["help"]))


def commands_of(derbyfig):
    def help_of(*words):
        return subprocess.run([derbyfig, *words, "-h"], check=True, capture_output=True, text=True).stdout

    found = (COMMAND.fullmatch(line) for line in section(help_of(), "Commands:"))
    return [Command(one["name"], one["help"], tuple(map(option_of, section(help_of(one["name"]), "Options:"))))
            for one in found if one["name"] != "help"]


def bash(commands):
    names = " ".join(command.name for command in commands)
    yield "_derbyfig() {"
    yield "    local word=${COMP_WORDS[COMP_CWORD]} words="
    yield f"    if [ \"$COMP_CWORD\" -eq 1 ]; then mapfile -t COMPREPLY < <(compgen -W '{names}' -- \"$word\"); return; fi"
    yield "    case ${COMP_WORDS[1]}:${COMP_WORDS[COMP_CWORD-1]} in"
    for command in commands:
        for option in command.options:
            place = f"        {command.name}:--{option.name})"
            if option.choices:
                yield f"{place} words='{' '.join(option.choices)}' ;;"
            elif option.value == "PATH":
                yield f"{place} mapfile -t COMPREPLY < <(compgen -d -- \"$word\"); return ;;"
            elif option.value:
                yield f"{place} return ;;"
    yield "    esac"
    yield "    if [ -z \"$words\" ]; then case ${COMP_WORDS[1]}:$word in"
    for command in commands:
        words = " ".join(word for option in command.options for word in option.words)
        yield f"        {command.name}:-*) words='{words}' ;;"
    yield "    esac; fi"
    yield "    if [ -n \"$words\" ]; then mapfile -t COMPREPLY < <(compgen -W \"$words\" -- \"$word\"); return; fi"
    yield "    mapfile -t COMPREPLY < <(compgen -f -- \"$word\")"
    yield "}"
    yield "complete -o filenames -F _derbyfig derbyfig"


def zsh(commands):
    def quoted(text):
        return text.replace("'", "'\\''").replace("[", "\\[").replace("]", "\\]").replace(":", "\\:")

    def arguments(option):
        value = f":{option.value}:" if option.value else ""
        if option.choices:
            value += f"({' '.join(option.choices)})"
        elif option.value == "PATH":
            value += "_files -/"
        return " ".join(f"'{word}[{quoted(option.help)}]{value}'" for word in option.words)

    yield "#compdef derbyfig"
    yield "local -a commands=("
    for command in commands:
        yield f"    '{command.name}:{quoted(command.help)}'"
    yield ")"
    yield "if (( CURRENT == 2 )); then _describe command commands; return; fi"
    yield "case $words[2] in"
    for command in commands:
        yield f"    {command.name}) shift words; (( CURRENT-- )); _arguments {' '.join(map(arguments, command.options))} '*:file:_files' ;;"
    yield "esac"


def fish(commands):
    def quoted(text):
        return "'" + text.replace("\\", "\\\\").replace("'", "\\'") + "'"

    for command in commands:
        yield f"complete -c derbyfig -n __fish_use_subcommand -f -a {command.name} -d {quoted(command.help)}"
    for command in commands:
        for option in command.options:
            names = f"-l {option.name}" + (f" -s {option.short}" if option.short else "")
            values = f" -a {quoted(' '.join(option.choices))}" if option.choices else ""
            needs = "" if not option.value else " -r" if option.value == "PATH" else " -x"
            yield (f"complete -c derbyfig -n '__fish_seen_subcommand_from {command.name}' {names}{needs}{values}"
                   f" -d {quoted(option.help)}")


def main():
    parser = argparse.ArgumentParser(description=__doc__, formatter_class=argparse.RawDescriptionHelpFormatter)
    parser.add_argument("shell", choices=("bash", "zsh", "fish"))
    parser.add_argument("derbyfig", help="the program")
    words = parser.parse_args()
    for line in {"bash": bash, "zsh": zsh, "fish": fish}[words.shell](commands_of(words.derbyfig)):
        print(line)


main()
