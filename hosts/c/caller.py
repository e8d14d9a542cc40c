#!/usr/bin/env python3
"""Calls the counter of a node in Rust, by the functions of masttomato.h: caller.py LIBRARY NUMBER PORT [TIMES].

LIBRARY is one that can be loaded (tools/host-c makes it), NUMBER the space that this is, which no process of the world has used before,
and PORT where space 1 listens on 127.0.0.1. It adds 20 so many times, and prints each total. docs/WIRE.md says what goes over the connection.
"""

import ctypes
import re
import secrets
import socket
import struct
import sys

OWNER, SPACES, VERSION, WINDOW = 1, 32, 4, 64
FRAMES, PING, PONG, BYE = range(4)
HELLO, HEAD = struct.Struct(">4sHHHBB16sQ28x"), struct.Struct(">IB3xQ")
CODES, TYPES = {}, {"bool": ctypes.c_bool, "size_t": ctypes.c_size_t, "void *": ctypes.c_void_p, "uint8_t *": ctypes.c_char_p}
TYPES |= {f"uint{bits}_t": getattr(ctypes, f"c_uint{bits}") for bits in (16, 32, 64)}


def declared(library):
    """The library, with the numbers, types and functions that the header declares."""
    header = re.sub(r"/\*.*?\*/", "", open(f"{sys.path[0]}/masttomato.h").read(), flags=re.S)
    CODES.update((name, int(number)) for name, number in re.findall(r"(NOB_\w+) = (\d+)", header))
    for body, name in re.findall(r"typedef struct \w+ \{(.*?)\} (\w+);", header, re.S):
        fields = [(field, TYPES[kind.strip()]) for kind, field in re.findall(r"(\w+ \*?)(\w+);", body)]
        TYPES[name] = type(name, (ctypes.Structure,), {"_fields_": fields})
    TYPES.update({f"{name} *": ctypes.POINTER(kind) for name, kind in TYPES.items()} | TYPES)  # those that were there stay
    for answer, name, parameters in re.findall(r"^(\w+) (nob_\w+)\((.*)\);", header, re.M):
        function = getattr(library, name)
        function.restype = TYPES.get(answer)
        function.argtypes = [TYPES[kind.strip()] for kind in re.findall(r"(\w+ \*?)\w+(?:, |$)", parameters)]
    return library


class Caller:
    """A space that calls another one over a connection. What is refused is an error, and so is a connection that breaks."""

    def __init__(self, library, number, port):
        self.library, self.handle = library, TYPES["NobHandle"]()
        if library.nob_version() != CODES["NOB_VERSION"] or library.nob_new(self.handle, number, SPACES, WINDOW, 16):
            raise ValueError(f"the library isn't of the header's version, or there is no space {number}")
        self.socket = socket.create_connection(("127.0.0.1", port))
        self.socket.sendall(HELLO.pack(b"NOBN", VERSION, number, SPACES, 0, WINDOW, b"", secrets.randbits(64)))
        _, version, space, _, refused, *_ = HELLO.unpack(self.socket.recv(HELLO.size, socket.MSG_WAITALL))
        if version != VERSION or refused or space != OWNER:
            raise ConnectionError(f"space {space}, whose hello has version {version}, refuses this one: {refused}")

    def ask(self, name, *words):
        """What is told, or None where there is nothing to do."""
        told = TYPES["NobTold"]()
        status = getattr(self.library, f"nob_{name}")(self.handle, *words, told)
        if status not in (CODES["NOB_OK"], CODES["NOB_NO_FRAME"], CODES["NOB_NOTHING_TO_DO"]):
            raise ValueError(f"{name}: status {status}")
        return told if status == CODES["NOB_OK"] else None

    def answer(self):
        room = ctypes.create_string_buffer(self.library.nob_answer(self.handle, b"", 0))
        return room[: self.library.nob_answer(self.handle, room, len(room))]

    def send_news(self):
        if self.library.nob_due(self.handle, OWNER) not in (CODES["NOB_NO_FRAMES"], CODES["NOB_GIVEN_BEFORE"]):
            self.ask("transmit", OWNER)
            frames = self.answer()
            self.socket.sendall(HEAD.pack(len(frames), FRAMES, 0) + frames)

    def call(self, index, method, value):
        """What an object answers. Until then each record is taken, and all is done that there is to do."""
        number = self.ask("call", OWNER, index, method, value, len(value)).number
        while not self.library.nob_reply_ready(self.handle, number):
            self.send_news()
            length, kind, _ = HEAD.unpack(self.socket.recv(HEAD.size, socket.MSG_WAITALL))
            self.ask("push", OWNER, body := self.socket.recv(length, socket.MSG_WAITALL), len(body))
            while self.ask("next") or self.ask("act", OWNER) or self.ask("settle") or self.ask("clean"):
                pass
            while job := self.ask("claim"):  # of the agent, which has no methods here
                self.ask("finish", job.number, CODES["NOB_NO_METHOD"], b"", 0)
            if kind == PING:
                self.socket.sendall(HEAD.pack(0, PONG, 0))
        if self.ask("take_reply", number).number != CODES["NOB_ANSWER"] or self.library.nob_value(self.handle):
            raise ValueError("the call was answered by a fault, or not at all")
        return self.answer()


def main(path, number, port, times="1"):
    caller = Caller(declared(ctypes.CDLL(path)), int(number), int(port))
    _, owner, counter = struct.unpack(">BHQ", caller.call(0, 1, struct.pack(">BI7s", 2, 7, b"counter")))
    for _ in range(int(times)):
        print(struct.unpack(">Bq", caller.call(counter, 0, struct.pack(">Bq", 1, 20)))[1], flush=True)
    caller.ask("release", owner, counter)
    caller.ask("clean")
    caller.send_news()
    caller.ask("close", OWNER)
    caller.send_news()
    caller.socket.sendall(HEAD.pack(0, BYE, 0))
    caller.library.nob_end(caller.handle)


main(*sys.argv[1:])
