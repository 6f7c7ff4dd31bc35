"""What is printed of sealed accounts that hold nothing, and what a day's export for hledger begins with."""
from books import Said, require_same

DATE = "2026-11-25"

# On banks of two slots. Accounts 3, 4 and 1,024 are sealed and hold nothing, and so is 1 in the end; 5 is sealed and holds
# something. The bank before the live one begins with the third batch, and so does the journal.
POSTED = """format 2
open 2 00 10
post 0 deposit 3 5
post 0 deposit 5 7
post 0 deposit 6 8
turn 0
post 1 withdraw 3 5
post 1 seal 3
post 1 seal 4
post 1 seal 5
turn 1
post 0 deposit 6 1
turn 0
post 1 seal 1024
turn 1
post 0 deposit 6 1
turn 0
post 1 seal 1
turn 1
"""


def in_json(*held):
    """Accounts, what they hold, and whether they are sealed."""
    return [f'"account":{account},"balance":"{balance}","sealed":{str(sealed).lower()}' for account, balance, sealed in held]


# What is printed of the balances, and of the journal, in each format.
BALANCES = {
    "table": """account             balance
      1                   0  sealed
      3                   0  sealed
      4                   0  sealed
      5                   7  sealed
      6                  10
   1024                   0  sealed
  total                  17
""",
    "csv": "account,balance,sealed\n1,0,true\n3,0,true\n4,0,true\n5,7,true\n6,10,false\n1024,0,true\ntotal,17,\n",
    "json": "".join(f'{{"kind":"account",{account}}}\n' for account in in_json(
        (1, 0, True), (3, 0, True), (4, 0, True), (5, 7, True), (6, 10, False), (1024, 0, True)
    )) + '{"kind":"total","total":"17"}\n',
    "hledger": f"""{DATE} opening balance
    ; account 1 is sealed
    ; account 3 is sealed
    ; account 4 is sealed
    account:5  7
    ; account 5 is sealed
    account:6  10
    ; account 1024 is sealed
    outside  -17
""",
}

SNAPSHOT = ",".join(f"{{{account}}}" for account in in_json((3, 0, True), (4, 0, True), (5, 7, True), (6, 8, False)))

JOURNALS = {
    "table": """before record 2: 2 accounts hold 15
  sequence station  kind     from   to              amount           reference
         2       0  deposit          6                   1                  12
                    balance          6                   9
         3       1  seal     1024                                           14
                    balance       1024                   0
         4       0  deposit          6                   1                  16
                    balance          6                  10
         5       1  seal        1                                           18
                    balance          1                   0
""",
    "csv": """sequence,station,kind,from,to,amount,reference,from_balance,to_balance
2,,sealed,3,,,,0,
2,,sealed,4,,,,0,
2,,snapshot,,5,7,,,7
2,,sealed,5,,,,7,
2,,snapshot,,6,8,,,8
2,0,deposit,,6,1,12,,9
3,1,seal,1024,,,14,0,
4,0,deposit,,6,1,16,,10
5,1,seal,1,,,18,0,
""",
    "json": f"""{{"kind":"snapshot","sequence":"2","balances":[{SNAPSHOT}],"total":"15"}}
{{"kind":"record","sequence":"2","station":0,"entries":[{{"kind":"deposit","to":6,"amount":"1","reference":"12"}}],\
"balances":[{{"account":6,"balance":"9","sealed":false}}]}}
{{"kind":"record","sequence":"3","station":1,"entries":[{{"kind":"seal","account":1024,"reference":"14"}}],\
"balances":[{{"account":1024,"balance":"0","sealed":true}}]}}
{{"kind":"record","sequence":"4","station":0,"entries":[{{"kind":"deposit","to":6,"amount":"1","reference":"16"}}],\
"balances":[{{"account":6,"balance":"10","sealed":false}}]}}
{{"kind":"record","sequence":"5","station":1,"entries":[{{"kind":"seal","account":1,"reference":"18"}}],\
"balances":[{{"account":1,"balance":"0","sealed":true}}]}}
""",
    "hledger": f"""{DATE} opening balance  ; before record 2
    ; account 3 is sealed
    ; account 4 is sealed
    account:5  7
    ; account 5 is sealed
    account:6  8
    outside  -15

{DATE} (2) record  ; station: 0
    outside  -1  ; reference: 12
    account:6  1  ; reference: 12

{DATE} (3) record  ; station: 1
    ; seal of account 1024, reference: 14

{DATE} (4) record  ; station: 0
    outside  -1  ; reference: 16
    account:6  1  ; reference: 16

{DATE} (5) record  ; station: 1
    ; seal of account 1, reference: 18
""",
}


def printed(shelf, command, path, form, *words):
    return shelf.printed(command, path, *words, "--as", form, "--date", DATE)


def sealed_and_empty(shelf):
    """A sealed account that holds nothing is told as sealed, in each format: among the balances, in the snapshot that a
    journal begins with, and by the record that seals it. The archive of the ledger is printed as the ledger is."""
    ledger, books = shelf.path / "ledger", shelf.folder("books")
    require_same(shelf.run("run", str(ledger), "--sectors", "47", said=POSTED).status, 0, "the ledger")
    require_same(shelf.archive(ledger, books), Said(0, "archived 4 from 2\n", ""), "the archive")
    for path in (ledger, books):
        for form, wanted in BALANCES.items():
            require_same(printed(shelf, "balances", path, form), wanted, f"the balances of {path} as {form}")
        for form, wanted in JOURNALS.items():
            require_same(printed(shelf, "journal", path, form), wanted, f"the journal of {path} as {form}")
        before = "account,balance,sealed\n3,0,true\n4,0,true\n5,7,true\n6,8,false\ntotal,15,\n"
        require_same(printed(shelf, "balances", path, "csv", "--at", "2"), before, f"what {path} held before record 2")


def records_from(whole, number):
    """The part of an export that begins with that record."""
    return whole[whole.index(f"\n{DATE} ({number}) record"):]


def require_exports(shelf, path, first, following):
    """That an export has an opening balance from record 0 on, and from each later one that is asked for has none."""
    whole = printed(shelf, "journal", path, "hledger")
    require_same(whole.count("opening balance"), 1, f"the opening balances of {path}")
    require_same(whole.startswith(f"{DATE} opening balance  ; before record {first}\n"), True, f"the opening balance of {path}")
    require_same(printed(shelf, "journal", path, "hledger", "--from", 0), whole, f"{path} from record 0 on")
    for number in range(max(first, 1), following):
        wanted = records_from(whole, number)
        require_same(printed(shelf, "journal", path, "hledger", "--from", number), wanted, f"{path} from record {number} on")
    require_same(printed(shelf, "journal", path, "hledger", "--from", following), "", f"{path} from behind its end on")


def from_each_record_on(shelf):
    """Whichever record a day begins with, the first one too, only the export from 0 on has an opening balance, of a ledger
    and of an archive; and the days together are the whole export."""
    ledger, books = shelf.ledger("ledger", 3), shelf.folder("books")
    exported = ""
    for day in range(5):
        ledger.post(1)
        require_same(shelf.archive(ledger.path, books), Said(0, f"archived 1 from {day}\n", ""), "a day's archive")
        exported += printed(shelf, "journal", books, "hledger", "--from", day)
    require_same(exported, printed(shelf, "journal", books, "hledger"), "the days' exports")
    require_exports(shelf, books, 0, 5)
    require_exports(shelf, ledger.path, 0, 5)
    ledger.post(3)
    late = shelf.folder("late")
    require_same(shelf.archive(ledger.path, late), Said(0, "archived 5 from 3\n", ""), "an archive that is begun late")
    require_exports(shelf, late, 3, 8)
    require_exports(shelf, ledger.path, 3, 8)
