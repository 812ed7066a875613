#!/usr/bin/env python3
"""A small stripe from Python: encode it, lose two columns, restore them, and print every column from where show says that it lies; then put the
stripe together, and have check say whether it is intact or blank; then a blank stripe, and a call that is refused. The bytes are those of cases C1,
C5, C10 and C11; the status is not 0 if others come out.

    cc -shared -o liboarwillow.so -Wl,--whole-archive liboarwillow.a -Wl,--no-whole-archive
    python3 example/example.py ./liboarwillow.so

The archive's code may stand at any address, so that a shared library can be linked from it. It must be built for the processor that python3 runs on."""
import ctypes
import sys

Byte, Size = ctypes.c_uint8, ctypes.c_size_t
Bytes, Number = ctypes.POINTER(Byte), ctypes.POINTER(Size)
SHAPE, BUFFER, PLACES = [Size] * 3, [Bytes, Size], 129
FOUND = {1: "intact", 2: "blank", 3: "broken"}  # enum oarwillow_found


def load(path):
    """the library; ctypes sees no header, and would take every number for an int"""
    library = ctypes.CDLL(path)
    library.oarwillow_encode.argtypes = SHAPE + BUFFER
    library.oarwillow_check.argtypes = SHAPE + BUFFER + [Number] * 2 + [Bytes]
    library.oarwillow_restore.argtypes = SHAPE + [Bytes] + BUFFER * 2 + [Number] * 3
    library.oarwillow_show.argtypes = SHAPE + [Bytes] + BUFFER * 2 + [Size] + [Number] * 3
    for call in library.oarwillow_encode, library.oarwillow_check, library.oarwillow_restore, library.oarwillow_show:
        call.restype = Byte
    return library


class Refused(Exception):
    """a call's refusal; include/oarwillow.h says what its number means"""

    def __init__(self, call, number):
        super().__init__(f"{call}: refused, {number}")
        self.number = number


def column_length(m, b):
    return (m - 1) * b


class Shelf:
    """a stripe, its bench and its presence map: three buffers, so that no two pointers of a call overlap, each with its length"""

    def __init__(self, library, m, k, b):
        self.library, self.shape = library, (m, k, b)
        self.stripe = (Byte * ((k + 2) * column_length(m, b)))()
        self.bench = (Byte * (2 * column_length(m, b)))()
        self.places = (Byte * PLACES)(*[1] * (k + 2))  # every column is present

    def call(self, name, *arguments):
        number = getattr(self.library, f"oarwillow_{name}")(*self.shape, *arguments)
        if number != 0:
            raise Refused(name, number)

    def buffers(self):
        return self.places, self.stripe, len(self.stripe), self.bench, len(self.bench)

    def encode(self):
        """writes H and D"""
        self.call("encode", self.stripe, len(self.stripe))

    def check(self):
        """what the stripe is: intact, blank (every byte is zero) or broken"""
        rows, diagonals, found = Size(), Size(), Byte()
        self.call("check", self.stripe, len(self.stripe), rows, diagonals, found)
        return FOUND[found.value]

    def restore(self):
        """writes the absent columns to the bench; gives how many they are, and their numbers. A blank stripe is restored as any other: check tells it,
        once the stripe is put together"""
        count, first, second = Size(), Size(), Size()
        self.call("restore", *self.buffers(), count, first, second)
        return count.value, first.value, second.value

    def show(self, column):
        """whether a column is on the bench, and its bytes"""
        from_bench, start, length = Size(), Size(), Size()
        self.call("show", *self.buffers(), column, from_bench, start, length)
        part = self.bench if from_bench.value else self.stripe
        return from_bench.value == 1, bytes(part[start.value : start.value + length.value])

    def put_together(self):
        """copies what was restored from the bench to its place in the stripe, for check, which reads every column"""
        m, k, b = self.shape
        self.stripe[:] = b"".join(self.show(column)[1] for column in range(k + 2))


def expect(said, right):
    if said != right:
        sys.exit(f"example.py: {said}, and not {right}")


def main(path):
    shelf = Shelf(load(path), 3, 3, 1)
    shelf.stripe[0:6] = bytes.fromhex("0102 0408 1020")
    shelf.encode()
    expect(bytes(shelf.stripe).hex(), "0102" "0408" "1020" "152a" "391e")

    # columns 0 and 2 are lost: what stands in their places is not read
    shelf.places[0] = shelf.places[2] = 0
    shelf.stripe[0:2] = shelf.stripe[4:6] = b"\xee\xee"
    restored = shelf.restore()
    expect(restored, (2, 0, 2))
    print("restored {}: columns {} and {}".format(*restored))
    for column, right in enumerate(["0102", "0408", "1020", "152a", "391e"]):
        from_bench, part = shelf.show(column)
        expect((from_bench, part.hex()), (column in (0, 2), right))
        print(column, "restored" if from_bench else "present", part.hex(" "))
    shelf.put_together()
    expect(shelf.check(), "intact")
    print(shelf.check())

    # a stripe of zeros, which perhaps no job ever wrote, is restored too; check tells it from a good one
    zeros = Shelf(shelf.library, 3, 3, 1)
    zeros.places[0] = 0
    expect(zeros.restore(), (1, 0, 129))
    zeros.put_together()
    expect(zeros.check(), "blank")
    print(zeros.check())

    # a third is lost: nobody gets a byte
    shelf.places[1] = 0
    try:
        shelf.restore()
    except Refused as refusal:
        expect(refusal.number, 4)
        print(refusal)
    else:
        sys.exit("example.py: three absent columns were not refused")


if len(sys.argv) != 2:
    sys.exit("usage: example.py LIBRARY    LIBRARY is the path of liboarwillow.so")
main(sys.argv[1])
