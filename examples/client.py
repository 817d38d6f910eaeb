#!/usr/bin/env python3
"""Speaks to the service over a socket: makes a table, writes a row and reads it back.

    client.py [HOST PORT]

HOST and PORT are those of a running `serve DIR HOST:PORT COUNT`, by default 127.0.0.1 and 7070. Where nobody listens there
yet, it tries again for five seconds. The table may be there already. It ends with status 1 where another request is
refused.
"""
import base64
import json
import socket
import sys
import time

PARENT = "projects/p/instances/i"
TABLE = PARENT + "/tables/greetings"
ALREADY_EXISTS = 6


def encoded(data):
    return base64.b64encode(data).decode()


class Refused(Exception):
    def __init__(self, status):
        super().__init__(status.get("message", ""))
        self.code = status["code"]


def connected(host, port, seconds=5):
    until = time.monotonic() + seconds
    while True:
        try:
            return socket.create_connection((host, port))
        except ConnectionRefusedError:
            if time.monotonic() > until:
                raise
            time.sleep(0.1)


class Client:
    """One connection. A request is one line; its reply is response lines, and then a status line."""

    def __init__(self, host, port):
        self.stream = connected(host, port).makefile("rwb")

    def call(self, method, request):
        """The responses to a request. Raises Refused, or EOFError where the reply does not come whole."""
        self.stream.write(json.dumps({"method": method, "request": request}).encode() + b"\n")
        self.stream.flush()
        responses = []
        for line in self.stream:
            message = json.loads(line)
            if "response" in message:
                responses.append(message["response"])
            elif message["status"]:
                raise Refused(message["status"])
            else:
                return responses
        raise EOFError("the connection ended within a reply")


def rows(responses):
    """Each cell of a ReadRows reply, as its row key, family, qualifier, timestamp in microseconds, and value."""
    key = family = qualifier = None
    for response in responses:
        for chunk in response["chunks"]:
            key = chunk.get("rowKey", key)
            family = chunk.get("familyName", family)
            qualifier = chunk.get("qualifier", qualifier)
            value = base64.b64decode(chunk.get("value", ""))
            yield base64.b64decode(key), family, base64.b64decode(qualifier), int(chunk.get("timestampMicros", 0)), value


def make_table(client):
    request = {"parent": PARENT, "tableId": "greetings", "table": {"columnFamilies": {"text": {}}}}
    try:
        client.call("CreateTable", request)
    except Refused as refused:
        if refused.code != ALREADY_EXISTS:
            raise


def write_row(client):
    cell = {"familyName": "text", "columnQualifier": encoded(b"english"), "timestampMicros": "1000",
            "value": encoded(b"Hello!")}
    client.call("MutateRow", {"tableName": TABLE, "rowKey": encoded(b"morning"), "mutations": [{"setCell": cell}]})


def main():
    host, port = sys.argv[1:] if len(sys.argv) == 3 else ("127.0.0.1", "7070")
    client = Client(host, int(port))
    try:
        make_table(client)
        write_row(client)
        for key, family, qualifier, micros, value in rows(client.call("ReadRows", {"tableName": TABLE})):
            print(key.decode(), family, qualifier.decode(), micros, value.decode())
    except Refused as refused:
        sys.exit(f"code {refused.code}: {refused}")


main()
