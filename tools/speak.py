"""An NFSv4.1 client that asks a server for one of nearly everything, for tries of `dump`.

usage: speak.py PORT FOLDER

It makes a client id and a session, works on one file and one directory, and gives all up again. What it wrote and what it read is kept in FOLDER, as client and
server. It ends with status 1 where the server answers an operation that should succeed with an error.
"""

import os
import socket
import struct
import sys

port, folder = int(sys.argv[1]), sys.argv[2]
link = socket.create_connection(("127.0.0.1", port), 10)
sent = open(os.path.join(folder, "client"), "wb")
came = open(os.path.join(folder, "server"), "wb")
xid = 0
failed = []


def word(*values):
    return b"".join(struct.pack(">I", value & 0xFFFFFFFF) for value in values)


def hyper(*values):
    return b"".join(struct.pack(">Q", value) for value in values)


def opaque(data):
    return word(len(data)) + data + bytes(-len(data) % 4)


def exactly(count):
    data = b""
    while len(data) < count:
        piece = link.recv(count - len(data))
        if not piece:
            sys.exit("the server has ended")
        data += piece
    came.write(data)
    return data


def call(*operations):
    """Sends one COMPOUND and gives the bytes behind the head of its reply: status, tag, count and results."""
    global xid
    xid += 1
    cred = word(0) + opaque(b"speaker") + word(0, 0, 0)
    body = word(xid, 0, 2, 100003, 4, 1, 1) + opaque(cred) + word(0, 0)
    body += opaque(b"") + word(1, len(operations)) + b"".join(operations)
    record = word(0x80000000 | len(body)) + body
    sent.write(record)
    link.sendall(record)
    reply = b""
    while True:
        head = struct.unpack(">I", exactly(4))[0]
        reply += exactly(head & 0x7FFFFFFF)
        if head & 0x80000000:
            break
    return reply[24:]


def good(name, answer):
    if answer[:4] != word(0):
        failed.append(f"{name}: {struct.unpack('>I', answer[:4])[0]}")
    return answer[12:]


class Session:
    turn = 0

    def __init__(self, sid):
        self.sid = sid

    def ask(self, name, *operations, want=True):
        """Sends a COMPOUND on slot 0 and gives the bytes behind SEQUENCE's result."""
        self.turn += 1
        sequence = word(53) + self.sid + word(self.turn, 0, 0, 0)
        answer = call(sequence, *operations)
        return (good(name, answer) if want else answer[12:])[44:]


root = word(24)
channel = word(0, 1049620, 1049620, 8192, 64, 16, 0)
answer = good("EXCHANGE_ID", call(word(42) + b"speaker1" + opaque(b"speaker") + word(0, 0, 0)))
client = answer[8:16]
made = word(43) + client + answer[16:20] + word(0) + channel + channel + word(0x40000000, 1, 0)
answer = good("CREATE_SESSION", call(made))
sid = answer[8:24]
good("BIND_CONN_TO_SESSION", call(word(41) + sid + word(1, 0)))
session = Session(sid)
ask = session.ask
ask("RECLAIM_COMPLETE", word(58, 0))
ask("GETATTR", root, word(9, 2, 0x10001A, 2))
ask("LEASE", root, word(9, 1, 1 << 10))
none = word(0, 0)
ask("CREATE", root, word(6, 2) + opaque(b"dir") + word(2, 0, 2) + opaque(word(0o755)), word(10))
ask("LOOKUP", root, word(15) + opaque(b"dir"), word(10), word(9, 2, 0x10001A, 2))
owner = client + opaque(b"owner")
opening = word(18, 0, 3, 0) + owner + word(1, 0) + word(2, 0, 2) + opaque(word(0o644))
answer = ask("OPEN", root, opening + word(0) + opaque(b"file"), word(10))
opened = answer[16:32]
length = struct.unpack(">I", answer[-4 - 0 :])[0]
handle = answer[answer.rindex(word(10, 0)) + 8 :]
there = word(22) + handle
ask("WRITE", there, word(38) + opened + hyper(0) + word(2) + opaque(b"some bytes"))
ask("COMMIT", there, word(5) + hyper(0) + word(0))
ask("READ", there, word(25) + opened + hyper(0) + word(64))
ask("READDIR", root, word(26) + hyper(0) + bytes(8) + word(4096, 4096, 0))
locked = ask("LOCK", there, word(12, 2, 0) + hyper(0, 100) + word(1, 0) + opened + word(0) + client + opaque(b"locker"))
lock = locked[16:32]
ask("LOCKT", there, word(13, 1) + hyper(0, 10) + client + opaque(b"other"), want=False)
ask("LOCKU", there, word(14, 2, 0) + lock + hyper(0, 100))
ask("TEST_STATEID", word(55, 1) + opened)
ask("FREE_STATEID", word(45) + lock, want=False)
ask("SETATTR", there, word(34) + opened + word(1, 16) + opaque(hyper(4)))
ask("RENAME", root, word(32), root, word(29) + opaque(b"file") + opaque(b"other"))
ask("CLOSE", there, word(4, 0) + opened)
ask("NOENT", root, word(15) + opaque(b"nothing"), want=False)
ask("REMOVE", root, word(28) + opaque(b"other"))
ask("REMOVE", root, word(28) + opaque(b"dir"))
good("DESTROY_SESSION", call(word(44) + sid))
good("DESTROY_CLIENTID", call(word(57) + client))
sent.close()
came.close()
for line in failed:
    print(line)
sys.exit(1 if failed else 0)
