"""A disk of the kernel, /dev/nbd0, whose server is this program: it notes each write, flush and answer in order.

The server and the kernel's client are threads; what they do lets the program's other threads run.
"""
import fcntl
import mmap
import os
import re
import select
import socket
import struct
import threading
import time
from pathlib import Path

DEVICE = "/dev/nbd0"
SECTOR, BLOCK = 512, 4096
NEVER = 1 << 60
PAUSE = 0.0002  # seconds without a request until those that came are answered
SET_SOCKET, SET_BLOCK_SIZE, DO_IT, SET_BLOCKS, SET_FLAGS = 0xAB00, 0xAB01, 0xAB03, 0xAB07, 0xAB0A
HAS_FLAGS, CAN_FLUSH, CAN_FORCE = 1, 4, 8
READ, WRITE, FLUSH, FORCED = 0, 1, 3, 1 << 16
REQUEST, ANSWER, ANSWER_MAGIC, NOT_SUPPORTED = struct.Struct(">IIQQI"), struct.Struct(">IIQ"), 0x67446698, 95
FORGET_PAGES = 0x1261


class Write:
    """A write that was asked for, in pieces of one block each, and the moments of what became of it."""

    def __init__(self, arrived, offset, held, is_forced):
        self.arrived, self.answered, self.certain, self.is_forced = arrived, NEVER, NEVER, is_forced
        self.pieces = []
        for at in range(0, len(held), SECTOR):
            if not self.pieces or (offset + at) % BLOCK == 0:
                self.pieces.append({})
            self.pieces[-1][(offset + at) // SECTOR] = held[at : at + SECTOR]


class Disk:
    """A moment is the number of events before it. A write is certain once it was answered where it was forced (FUA), or
    once a flush was answered that came after the write's answer."""

    def __init__(self, image):
        self.image = held_by(image)
        self.moment, self.writes, self.flushes, self.outputs = 0, [], 0, []
        self.is_noting, self.changed = False, set()
        self.said, self.output = os.pipe()
        self.server, client = socket.socketpair()
        threading.Thread(target=self.serve, daemon=True).start()
        size = len(self.image) // SECTOR
        threading.Thread(target=attach, args=(client, size), daemon=True).start()
        while int(Path("/sys/block/nbd0/size").read_text()) != size or not Path("/sys/block/nbd0/pid").exists():
            time.sleep(0.01)
        self.device = os.open(DEVICE, os.O_RDWR)

    def serve(self):
        waiting = []
        while True:
            ready, _, _ = select.select([self.said, self.server], [], [], PAUSE if waiting else None)
            if not ready:
                for request in waiting:
                    self.answer(*request)
                waiting.clear()
            if self.said in ready:  # first, so that it counts as said before what the disk hears later
                self.moment += 1
                self.outputs.append((self.moment, os.read(self.said, 65536)))
            if self.server in ready:
                _, kind, handle, offset, size = REQUEST.unpack(self.receive(REQUEST.size))
                if kind == READ:
                    held = self.image[offset : offset + size]
                    self.server.sendall(ANSWER.pack(ANSWER_MAGIC, 0, handle) + held)
                else:
                    waiting.append((handle, kind & ~FORCED, self.moment, self.take(kind, offset, size)))

    def receive(self, size):
        held = b""
        while len(held) < size:
            held += self.server.recv(size - len(held))
        return held

    def take(self, kind, offset, size):
        """Does what was asked, and notes it."""
        self.moment += self.is_noting
        if kind & ~FORCED != WRITE:
            return None
        held = self.receive(size)
        self.image[offset : offset + size] = held
        self.changed.update(range(offset // BLOCK, (offset + size + BLOCK - 1) // BLOCK))
        if not self.is_noting:
            return None
        self.writes.append(Write(self.moment, offset, held, bool(kind & FORCED)))
        return self.writes[-1]

    def answer(self, handle, kind, arrived, write):
        if self.is_noting:
            self.moment += 1
        if write:
            write.answered = self.moment
            write.certain = self.moment if write.is_forced else NEVER
        elif self.is_noting and kind == FLUSH:
            self.flushes += 1
            for earlier in self.writes:
                if earlier.answered <= arrived:
                    earlier.certain = min(earlier.certain, self.moment)
        self.server.sendall(ANSWER.pack(ANSWER_MAGIC, 0 if kind in (WRITE, FLUSH) else NOT_SUPPORTED, handle))

    def said_by(self):
        """What the work has written in all by a moment, in order."""
        said = b""
        for moment, more in self.outputs:
            said += more
            yield moment, said

    def load(self, base, sectors):
        """Makes the disk what `base` holds but for these sectors; the kernel remembers nothing else."""
        self.forget()
        changed, self.changed = self.changed, {number * SECTOR // BLOCK for number in sectors}
        for block in changed:
            part = slice(block * BLOCK, (block + 1) * BLOCK)
            self.image[part] = base[part]
        for number, held in sectors.items():
            self.image[number * SECTOR : (number + 1) * SECTOR] = held
        self.forget()

    def forget(self):
        for _ in range(500):
            fcntl.ioctl(self.device, FORGET_PAGES, 0)
            if re.search(r"^Buffers: +0 kB$", Path("/proc/meminfo").read_text(), re.MULTILINE):
                return
            time.sleep(0.002)
        raise SystemExit("pages of the disk stay in memory")


def held_by(path):
    """The bytes of a file, which change with it."""
    with open(path, "r+b") as file:
        return mmap.mmap(file.fileno(), 0)


def attach(client, sectors):
    """The kernel's side of the disk: this call doesn't return."""
    device = os.open(DEVICE, os.O_RDWR)
    flags = HAS_FLAGS | CAN_FLUSH | CAN_FORCE
    orders = (SET_BLOCK_SIZE, SECTOR), (SET_BLOCKS, sectors), (SET_FLAGS, flags), (SET_SOCKET, client.fileno())
    for order, value in (*orders, (DO_IT, 0)):
        fcntl.ioctl(device, order, value)
