"""What a loss of power leaves of the files of a folder, by the log of crash_calls.c.

The disk keeps what a sync that succeeded has written. Of each later write any pieces of 512 bytes may be on it, the rest is as before; or,
if `rots`, a piece has any bytes. A file that grows is filled with zeros, and has any length that it had since its sync, or one between. Of
the changes of names since the last sync of the folder the first ones are there, any number of them.

A sync that fails leaves the pages that it was to write clean: they are read as they were written, and a later sync writes only pages that
were written again."""

import os

PIECE = 512  # bytes that the disk writes whole or not at all
PAGE = 4096  # bytes that the system writes whole


class File:
    def __init__(self, content=b""):
        self.disk, self.cache = bytearray(content), bytearray(content)
        self.forget()

    def forget(self):
        """Whatever was written, a sync need not write it."""
        self.writes, self.lengths = [], {len(self.disk), len(self.cache)}

    def write(self, at, data):
        old = self.cache.ljust(at, b"\0")
        self.cache = old[:at] + data + old[at + len(data) :]
        self.writes.append((at, data))
        self.lengths.add(len(self.cache))

    def cut(self, length):
        self.cache = self.cache[:length].ljust(length, b"\0")
        self.writes.append((length, b""))
        self.lengths.add(length)

    def sync(self):
        """What is on the disk after a sync that succeeds."""
        self.disk = self.disk[: len(self.cache)].ljust(len(self.cache), b"\0")
        for at, data in self.writes:
            begin, end = at // PAGE * PAGE, (at + len(data)) // PAGE * PAGE + PAGE
            self.disk[begin:end] = self.cache[begin:end]
        self.forget()

    def left(self, chance=None, rots=False):
        """What a loss of power leaves, with `chance`; else what is on the disk for certain."""
        if chance is None:
            return bytes(self.disk)
        shortest, longest = min(self.lengths), max(self.lengths)
        found = self.disk.ljust(longest, b"\0")
        for at, data in self.writes:
            for begin in range(at // PIECE * PIECE, at + len(data), PIECE):
                first, last = max(at, begin), min(at + len(data), begin + PIECE)
                what = chance.randrange(3 if rots else 2)
                if what == 1:
                    found[first:last] = data[first - at : last - at]
                elif what == 2:
                    found[first:last] = bytes(chance.choices(b"\0{\n}x", k=last - first))
        return bytes(found[: chance.choice([shortest, longest, chance.randint(shortest, longest)])])


class Disk:
    """The files of a folder, whose present content is on the disk, while a process works on them."""

    def __init__(self, folder):
        self.folder = os.stat(folder).st_ino
        self.files = {path.stat().st_ino: File(path.read_bytes()) for path in folder.iterdir()}
        self.names = {path.name: self.files[path.stat().st_ino] for path in folder.iterdir()}  # on the disk
        self.changes = []  # of names, since the last sync of the folder

    def named(self, count):
        """The names after as many changes."""
        names = dict(self.names)
        for it in self.changes[:count]:
            names |= it
        return {name: file for name, file in names.items() if file}

    def left(self, chance=None, rots=False):
        """The names and contents that a loss of power leaves, or what is on the disk for certain."""
        names = self.named(chance.randint(0, len(self.changes)) if chance else 0)
        return {name: file.left(chance, rots) for name, file in names.items()}

    def follow(self, line):
        """Does what a line of the log says. Returns whether the disk may be another one now."""
        if line.split(" ")[0] in ("asked", "answered", "reached"):
            return False
        name, result, inode, rest = line.split(" ", 3)
        file, is_done, words = self.files.get(int(inode)), int(result) >= 0, rest.split(" ")
        match name:
            case "open" if is_done and words[0] != "-":
                self.files[int(inode)] = File()
                self.changes.append({os.path.basename(words[1]): self.files[int(inode)]})
            case "pwrite" if is_done and file:
                file.write(int(words[0]), bytes.fromhex(words[1]))
            case "ftruncate" if is_done and file:
                file.cut(int(words[0]))
            case "fsync" | "fdatasync" if file:
                file.sync() if is_done else file.forget()
            case "fsync" if is_done and int(inode) == self.folder:
                self.names, self.changes = self.named(len(self.changes)), []
            case "rename" if is_done:
                begin, end = map(os.path.basename, words)
                self.changes.append({end: self.named(len(self.changes))[begin], begin: None})
            case "unlink" if is_done:
                self.changes.append({os.path.basename(rest): None})
            case _:
                return False
        return True
