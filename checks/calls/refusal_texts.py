"""What each refusal says, as a person reads it: python3 checks/calls/refusal_texts.py

Each of these texts has to stand, as that of a refusal, in a `NAME.out` beside this file, with which the tests that are
text compare what the console prints. N is any number. Prints a line for each kind of refusal, and those texts that no
test wants. The status is 1 if there is one.
"""
import re
import sys
from pathlib import Path

HERE = Path(__file__).resolve().parent

TEXTS = {
    "of_journals": (
        "the device is not formatted",
        "the device has version N",
        "the number of slots is wrong for the device",
        "damage at N: the slot's body is no record",
        "damage at N: the slot's record has another sequence",
        "damage at N: the slot is open behind a closed one",
        "damage at N: no bank is live, or the one of this number isn't sound",
        "the device failed",
    ),
    "of_calls_of_a_journal": (
        "the journal has met a device fault and must be opened again",
        "there are no more sequence numbers",
        "each slot of the live bank holds a record",
        "there are no more epochs",
        "the marks have a byte that isn't zero",
    ),
    "of_recovery_and_of_a_day": (
        "the seat of a station is missing",
        "it holds no ledger",
        "its ledger has version N, which isn't known",
        "its number of slots is out of range, or it is too short for them",
        "damage at N: the body of an open slot is no record",
        "damage at N: the record of a slot has another sequence number",
        "damage at N: a slot is open behind a closed one",
        "damage at N: a bank isn't sound, or none is live",
        "damage at N: place N of a record is no entry",
        "damage at N: the entry at place N of a record breaks a rule of the ledger",
        "it can't be read",
    ),
    "of_an_office": (
        "the limit of turns is reached",
        "a device fault was met and the device must be opened again",
        "there is no such station",
        "it is not the station's turn",
        "more entries than a batch holds",
        "there are no more sequence numbers or epochs",
    ),
    "of_entries_and_questions": (
        "the amount is zero",
        "there is no such account",
        "a transfer needs two accounts",
        "the account holds too little",
        "the total of all accounts would pass its limit",
        "the account is sealed",
    ),
    "of_lines": (
        "a line has 2 to 64 stations",
        "each list of bits has one bit for each station",
        "the station of move N may not move by its rule there",
    ),
    "of_archives": (
        "records between are lost",
        "it ends before the archive does",
        "the ledger wasn't read: the device failed",
        "it held something else where the archive ends",
        "the new device has too few sectors for the slots",
        "the new device failed",
    ),
}


def is_wanted(text, lines):
    told = re.compile("(?:refused )?.*: " + re.escape(text).replace("N", r"\d+"))
    return any(told.fullmatch(line) for line in lines)


def main():
    lines = {line for path in HERE.glob("*/*.out") for line in path.read_text(encoding="utf-8").splitlines()}
    failed = False
    for kind, texts in TEXTS.items():
        missing = [text for text in texts if not is_wanted(text, lines)]
        failed = failed or bool(missing)
        print(f"refusals {kind}: {len(texts) - len(missing)} texts, each told by a call", *missing, sep="\n  no test wants: ")
    sys.exit(1 if failed else 0)


main()
