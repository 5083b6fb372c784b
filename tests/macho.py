"""Files of macOS, read where there is no Mac: for tests/machines."""
import hashlib
import struct

SEGMENT, MAIN, BUILD, SIGNATURE, LOADS, BINDINGS = 0x19, 0x80000028, 0x32, 0x1D, 0xC, (0x22, 0x80000022)
PROCESSORS = {0x01000007: "x86_64", 0x0100000C: "arm64"}


class MachO:
    """A program or a library: what its load commands say."""

    def __init__(self, path):
        with open(path, "rb") as file:
            self.bytes = file.read()
        magic, processor, _, self.kind, count = struct.unpack_from("<5I", self.bytes)
        if magic != 0xFEEDFACF:
            raise ValueError(f"{path} is no file of macOS")
        self.processor, self.segments, self.libraries, self.bindings = PROCESSORS.get(processor), [], [], {}
        self.entry = self.least = self.signature = None
        at = 32
        for _ in range(count):
            command, size = struct.unpack_from("<2I", self.bytes, at)
            self.read(command, at)
            at += size

    def read(self, command, at):
        """Takes what one load command says."""
        def numbers(layout):
            return struct.unpack_from(f"<{layout}", self.bytes, at + 8)

        if command == SEGMENT:
            name, place, size = numbers("16s2Q")
            self.segments.append((name.rstrip(b"\0").decode(), place, size))
        elif command == MAIN:
            self.entry = numbers("Q")[0]
        elif command == BUILD:
            platform, least = numbers("2I")
            self.least = platform, f"{least >> 16}.{least >> 8 & 255}"
        elif command == SIGNATURE:
            self.signature = numbers("2I")
        elif command == LOADS:
            begin = at + numbers("I")[0]
            self.libraries.append(self.bytes[begin : self.bytes.index(b"\0", begin)].decode())
        elif command in BINDINGS:
            _, _, begin, size, _, _, lazy, lazy_size = numbers("8I")
            self.bind(begin, begin + size)
            self.bind(lazy, lazy + lazy_size)

    def number(self, at):
        """A number in bytes of seven bits, and where it ends."""
        value = shift = 0
        while True:
            byte = self.bytes[at]
            at, value, shift = at + 1, value | (byte & 127) << shift, shift + 7
            if byte < 128:
                return value, at

    def bind(self, at, end):
        """Reads the program by which dyld binds places in memory to symbols of other libraries."""
        place, symbol = 0, ""
        while at < end:
            code, low = self.bytes[at] & 0xF0, self.bytes[at] & 15
            at += 1
            if code == 0x40:
                stop = self.bytes.index(b"\0", at)
                symbol, at = self.bytes[at:stop].decode(), stop + 1
            elif code == 0x70:
                by, at = self.number(at)
                place = self.segments[low][1] + by
            elif code in (0x20, 0x60):
                _, at = self.number(at)
            elif code == 0x80:
                by, at = self.number(at)
                place += by
            elif code in (0x90, 0xA0, 0xB0):
                self.bindings[place] = symbol
                by, at = self.number(at) if code == 0xA0 else (low * 8 if code == 0xB0 else 0, at)
                place += 8 + by
            elif code == 0xC0:
                count, at = self.number(at)
                by, at = self.number(at)
                for _ in range(count):
                    self.bindings[place] = symbol
                    place += 8 + by

    def is_signed(self):
        """Whether the signature has the sum of each page of the file in front of it."""
        if not self.signature:
            return False
        begin = self.signature[0]
        _, _, count = struct.unpack_from(">3I", self.bytes, begin)
        slots = dict(struct.unpack_from(">2I", self.bytes, begin + 12 + 8 * it) for it in range(count))
        at = begin + slots[0]
        magic, _, _, _, hashes, _, _, pages, limit, size, kind, _, log = struct.unpack_from(">9I4B", self.bytes, at)
        page = 1 << log
        sums = [self.bytes[at + hashes + it * size :][:size] for it in range(pages)]
        wanted = [hashlib.sha256(self.bytes[it : min(it + page, limit)]).digest() for it in range(0, limit, page)]
        return magic == 0xFADE0C02 and kind == 2 and limit == begin and sums == wanted
