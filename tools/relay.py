"""A relay between a client and a server on the loopback, for tries.

usage: relay.py PORT_FILE SERVER_PORT EVERY FOLDER

It listens on a free port, which it writes to PORT_FILE, and passes each connection on to the server. After each EVERY records of the server, all connections
together, it cuts the connection in place of passing that record on (EVERY 0: never). What each side wrote is kept in FOLDER, as client and server, one
connection after another, and the number of cuts in FOLDER/cuts. It runs until it is ended.
"""

import os
import socket
import sys
import threading

port_file, server_port, every, folder = sys.argv[1], int(sys.argv[2]), int(sys.argv[3]), sys.argv[4]
lock = threading.Lock()
records = 0
cuts = 0


def keep(side, data):
    with lock, open(os.path.join(folder, side), "ab") as file:
        file.write(data)


def is_cut():
    """Counts a record of the server, and tells whether it is one to be lost."""
    global records, cuts
    with lock:
        records += 1
        if every and records % every == 0:
            cuts += 1
            with open(os.path.join(folder, "cuts"), "w") as file:
                file.write(str(cuts))
            return True
    return False


def exactly(end, count):
    data = b""
    while len(data) < count:
        piece = end.recv(count - len(data))
        if not piece:
            return None
        data += piece
    return data


def shut(*ends):
    for end in ends:
        try:
            end.shutdown(socket.SHUT_RDWR)
        except OSError:
            pass


def send(server, piece):
    try:
        server.sendall(piece)
    except OSError:
        pass


def to_server(client, server):
    """Reads on where the server is cut off: what was passed on before can still be read by the client."""
    try:
        while piece := client.recv(65536):
            keep("client", piece)
            send(server, piece)
    except OSError:
        pass
    shut(client, server)


def to_client(client, server):
    """Passes whole fragments on; a server writes one for each record."""
    try:
        while head := exactly(server, 4):
            body = exactly(server, int.from_bytes(head, "big") & 0x7FFFFFFF)
            if body is None or is_cut():
                break
            keep("server", head + body)
            client.sendall(head + body)
    except OSError:
        pass
    shut(server)
    try:
        client.shutdown(socket.SHUT_WR)
    except OSError:
        pass


def serve(listener):
    while True:
        try:
            client, _ = listener.accept()
            server = socket.create_connection(("127.0.0.1", server_port), 5)
        except OSError:
            return
        for pass_on in (to_server, to_client):
            threading.Thread(target=pass_on, args=(client, server), daemon=True).start()


listener = socket.socket()
listener.bind(("127.0.0.1", 0))
listener.listen(16)
with open(port_file + ".new", "w") as file:
    file.write(str(listener.getsockname()[1]))
os.replace(port_file + ".new", port_file)
threading.Thread(target=serve, args=(listener,), daemon=True).start()
threading.Event().wait()
