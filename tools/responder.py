#!/usr/bin/env python3
"""A peer that answers the first TCP connection as it is told, and then ends.

responder.py FILE MODE: listens on the loopback at a free port, writes that port into FILE, takes one connection, reads one
record and answers by MODE:

  answer     a lawful reply to EXCHANGE_ID
  pieces     the same, byte after byte
  delay      a reply with status NFS4ERR_DELAY and no result body
  xid        the lawful reply, to another xid
  rubbish    a lawful record that is no RPC message
  half       half of the lawful reply, then the end
  huge       a header that claims 0xFFFFFFFF bytes, and nothing behind it
  fragments  the lawful reply in three fragments
  silent     nothing, until the other side ends
"""
import os
import socket
import struct
import sys
import time


def words(*numbers):
    return b"".join(struct.pack(">I", number) for number in numbers)


def opaque(data):
    return words(len(data)) + data + b"\0" * (-len(data) % 4)


def record(body):
    return words(0x80000000 | len(body)) + body


def fragments(body):
    return words(5) + body[:5] + words(0) + record(body[5:])


def head(xid, status):
    accepted = words(xid, 1, 0, 0) + opaque(b"") + words(0)
    return accepted + words(status) + opaque(b"") + words(1, 42, status)


def reply_body(xid):
    ids = struct.pack(">QIII", 7, 1, 0x00010000, 0) + struct.pack(">Q", 0)
    return head(xid, 0) + ids + opaque(b"srv") + opaque(b"srv") + words(0)


def reply(xid):
    return record(reply_body(xid))


def read_record(peer):
    data = b""
    while len(data) < 4 or len(data) < 4 + (struct.unpack(">I", data[:4])[0] & 0x7FFFFFFF):
        piece = peer.recv(4096)
        if not piece:
            return data
        data += piece
    return data


def respond(peer, mode):
    read_record(peer)
    if mode == "answer":
        peer.sendall(reply(1))
    elif mode == "pieces":
        peer.setsockopt(socket.IPPROTO_TCP, socket.TCP_NODELAY, 1)
        for byte in reply(1):
            peer.sendall(bytes([byte]))
            time.sleep(0.002)
    elif mode == "delay":
        peer.sendall(record(head(1, 10008)))
    elif mode == "xid":
        peer.sendall(reply(2))
    elif mode == "rubbish":
        peer.sendall(record(b"this is no message of RPC at all"))
    elif mode == "half":
        peer.sendall(reply(1)[:48])
        return
    elif mode == "huge":
        peer.sendall(words(0xFFFFFFFF))
    elif mode == "fragments":
        peer.sendall(fragments(reply_body(1)))
    elif mode != "silent":
        sys.exit("no such mode: " + mode)
    while peer.recv(4096):
        pass


def main():
    file, mode = sys.argv[1], sys.argv[2]
    listener = socket.socket()
    listener.bind(("127.0.0.1", 0))
    listener.listen(1)
    listener.settimeout(90)
    with open(file + ".new", "w") as out:
        out.write(str(listener.getsockname()[1]))
    os.rename(file + ".new", file)
    peer, _ = listener.accept()
    peer.settimeout(90)
    with peer:
        respond(peer, mode)


main()
