#!/usr/bin/env python3
"""Clients that behave badly, one after another, before one that does not.

usage: clients.py PROGRAM DIR

PROGRAM is the built bt_prog, DIR a folder in which one is made and removed. `serve` is to answer
the last client whole, whatever the ones before it did: each ends its own connection and no other.
Besides, a port that is taken and an address that is none end the program with status 6. It ends
with status 1 at the first thing that is not so.
"""
import os
import socket
import struct
import subprocess
import sys
import tempfile
import time

HERE = os.path.dirname(os.path.abspath(__file__))
LINES = open(os.path.join(HERE, "..", "examples", "first.jsonl"), "rb").read()
REPLIES = 6
NOT_ENDED = b'{"status":{"code":3,"message":"line not ended"}}\n'
TOO_LONG = b'{"status":{"code":3,"message":"line too long"}}\n'


def free_port():
    probe = socket.socket()
    probe.bind(("127.0.0.1", 0))
    port = probe.getsockname()[1]
    probe.close()
    return port


def connected(port):
    for _ in range(500):
        try:
            return socket.create_connection(("127.0.0.1", port), timeout=60)
        except ConnectionRefusedError:
            time.sleep(0.02)
    sys.exit("nobody listens")


def received(client):
    replies = b""
    try:
        while data := client.recv(65536):
            replies += data
    except ConnectionResetError:
        pass
    client.close()
    return replies


def reset(client):
    client.setsockopt(socket.SOL_SOCKET, socket.SO_LINGER, struct.pack("ii", 1, 0))
    client.close()


def says_nothing(client):
    client.close()


def ends_in_a_line(client):
    client.sendall(b'{"method":')
    client.shutdown(socket.SHUT_WR)
    assert received(client) == NOT_ENDED


def resets_in_a_line(client):
    client.sendall(b'{"method":')
    reset(client)


def never_ends_a_line(client):
    try:
        for _ in range(400):
            client.sendall(b"x" * 65536)
    except OSError:
        pass
    assert received(client) in (TOO_LONG, b"")


def does_not_read(client):
    client.settimeout(1)
    try:
        while True:
            client.sendall(b'{"method":"GetTable","request":{}}\n' * 1000)
    except OSError:
        reset(client)


def is_no_text(client):
    client.sendall(bytes(range(11, 256)) + b"\n")
    client.shutdown(socket.SHUT_WR)
    assert received(client) == b'{"status":{"code":3,"message":"not json"}}\n'


def behaves(client):
    client.sendall(LINES)
    client.shutdown(socket.SHUT_WR)
    replies = received(client)
    assert replies.count(b"\n") == REPLIES and replies.endswith(b'{"status":{}}\n'), replies


CLIENTS = [says_nothing, ends_in_a_line, resets_in_a_line, never_ends_a_line, does_not_read, is_no_text, behaves]


def status(program, folder, address):
    return subprocess.run([program, "serve", folder, address, "1"], stderr=subprocess.PIPE).returncode


def main():
    program, where = os.path.abspath(sys.argv[1]), os.path.abspath(sys.argv[2])
    with tempfile.TemporaryDirectory(dir=where) as folder:
        port = free_port()
        server = subprocess.Popen([program, "serve", os.path.join(folder, "data"), f"127.0.0.1:{port}", str(len(CLIENTS))])
        for client in CLIENTS:
            client(connected(port))
            print(client.__name__.replace("_", " "))
        assert server.wait(timeout=60) == 0
        taken = socket.socket()
        taken.bind(("127.0.0.1", 0))
        taken.listen()
        assert status(program, os.path.join(folder, "other"), "127.0.0.1:%d" % taken.getsockname()[1]) == 6
        assert status(program, os.path.join(folder, "other"), "nowhere") == 6
        print("a port that is taken and an address that is none end with status 6")


main()
