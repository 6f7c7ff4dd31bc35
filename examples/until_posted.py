"""The same in Python."""
import sys
import time
from derbyfig import Counter, InUse, NoOffice, TimeOut

folder, key = sys.argv[1:]
while True:
    try:
        with Counter(folder, f"{folder}.state") as counter:
            print("posted", counter.post("deposit 1 500", key))
        break
    except (NoOffice, TimeOut, InUse):
        time.sleep(1)
