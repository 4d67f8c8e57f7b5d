"""What tshark reads in a capture, as the lines that `dump` is to print.

usage: told.py CAPTURE PORT client|server

It prints the lines of the calls or of the replies, and ends with status 1 where tshark finds a malformed packet.
"""

import subprocess
import sys

capture, port, side = sys.argv[1:]
read = ["tshark", "-r", capture, "-d", f"tcp.port=={port},rpc"]


def tshark(*words):
    return subprocess.run([*read, *words], capture_output=True, text=True, check=True).stdout


wanted = "0" if side == "client" else "1"
number = 0
for line in tshark("-Y", "nfs", "-T", "fields", "-e", "rpc.xid", "-e", "rpc.msgtyp", "-e", "nfs.opcode", "-e", "nfs.nfsstat4").splitlines():
    xid, kind, operations, statuses = (field.split(",") for field in line.split("\t"))
    if kind != [wanted]:
        continue
    number += 1
    head = f"{number} {'call' if side == 'client' else 'reply'} xid {int(xid[0], 16)}"
    if side == "client":
        print(head, "ops", *operations)
    else:
        # The first status is that of the whole; what TEST_STATEID tells of its stateids comes last.
        outcomes = (f"{operation}:{status}" for operation, status in zip(operations, statuses[1:]))
        print(head, "status", statuses[0], "ops", *outcomes)
print("rest 0")
sys.exit(1 if tshark("-Y", "_ws.malformed") else 0)
