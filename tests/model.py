#!/usr/bin/env python3
"""An independent model of the order book, to work out the values that crates/book_tests expects.

It is written from the rules in docs/FORMATS.md and from FIPS 180-4, and shares nothing with the crates. It keeps the
start register and all lines, and works out everything that a book shows anew from the orders in force: it never
decrypts. `model.py` holds its own compression to hashlib, then prints the values, in the sequence of the tests.
"""
import hashlib

MASK = 0xFFFFFFFF
OFFICE = bytes([0, 0xFF, 0x80] * 5 + [0] * 6)
NAME = b"SAFE0001"


def left(x, n):
    return (x << n | x >> (32 - n)) & MASK


def right(x, n):
    return left(x, 32 - n)


def primes(n):
    found = []
    k = 2
    while len(found) < n:
        if all(k % p for p in found):
            found.append(k)
        k += 1
    return found


def root(x, k):
    """The whole part of the k-th root of x."""
    low, high = 0, 1 << (x.bit_length() // k + 1)
    while high - low > 1:
        mid = (low + high) // 2
        low, high = (mid, high) if mid**k <= x else (low, mid)
    return low


def choose(x, y, z):
    return (x & y) ^ (~x & MASK & z)


def majority(x, y, z):
    return (x & y) ^ (x & z) ^ (y & z)


class Shacal1:
    width = 5
    initial = [0x67452301, 0xEFCDAB89, 0x98BADCFE, 0x10325476, 0xC3D2E1F0]

    @staticmethod
    def encrypt(key, block):
        w = list(key)
        for t in range(16, 80):
            w.append(left(w[t - 3] ^ w[t - 8] ^ w[t - 14] ^ w[t - 16], 1))
        a, b, c, d, e = block
        for t in range(80):
            if t < 20:
                f, k = choose(b, c, d), 0x5A827999
            elif t < 40:
                f, k = b ^ c ^ d, 0x6ED9EBA1
            elif t < 60:
                f, k = majority(b, c, d), 0x8F1BBCDC
            else:
                f, k = b ^ c ^ d, 0xCA62C1D6
            a, b, c, d, e = (left(a, 5) + f + e + k + w[t]) & MASK, a, left(b, 30), c, d
        return [a, b, c, d, e]


class Shacal2:
    width = 8
    # the first 32 bits of the fractions of square and cube roots of primes
    initial = [root(p << 64, 2) & MASK for p in primes(8)]
    constants = [root(p << 96, 3) & MASK for p in primes(64)]

    @classmethod
    def encrypt(cls, key, block):
        w = list(key)
        for t in range(16, 64):
            x, y = w[t - 2], w[t - 15]
            one = right(x, 17) ^ right(x, 19) ^ x >> 10
            zero = right(y, 7) ^ right(y, 18) ^ y >> 3
            w.append((one + w[t - 7] + zero + w[t - 16]) & MASK)
        a, b, c, d, e, f, g, h = block
        for t in range(64):
            one = right(e, 6) ^ right(e, 11) ^ right(e, 25)
            zero = right(a, 2) ^ right(a, 13) ^ right(a, 22)
            t1 = h + one + choose(e, f, g) + cls.constants[t] + w[t]
            t2 = zero + majority(a, b, c)
            a, b, c, d, e, f, g, h = (t1 + t2) & MASK, a, b, c, (d + t1) & MASK, e, f, g
        return [a, b, c, d, e, f, g, h]


class Practice:
    width = 2
    initial = [1, 2]

    @staticmethod
    def encrypt(key, block):
        return [(block[0] + key[0]) & MASK, (block[1] + key[1]) & MASK]


def words(data):
    return [int.from_bytes(data[i : i + 4], "big") for i in range(0, len(data), 4)]


def to_bytes(ws):
    return b"".join(w.to_bytes(4, "big") for w in ws)


def digest(cipher, message):
    padded = message + b"\x80" + bytes(-(len(message) + 9) % 64) + (8 * len(message)).to_bytes(8, "big")
    h = cipher.initial
    for i in range(0, len(padded), 64):
        h = [(x + y) & MASK for x, y in zip(cipher.encrypt(words(padded[i : i + 64]), h), h)]
    return h


def open_at(table, hour):
    w = hour % 168
    return table[w // 8] >> (7 - w % 8) & 1 == 1


def following(table, hour):
    while not open_at(table, hour):
        hour += 1
    return hour


class Refused(Exception):
    pass


class Book:
    def __init__(self, cipher):
        self.cipher = cipher
        self.name, self.base, self.table = bytes(8), 0, b"\xff" * 21
        self.start = [0] * cipher.width
        self.lines = []  # [letter, amount, in force]

    def refuse(self, *checks):
        for holds, number in checks:
            if holds:
                raise Refused(number)

    def set_up(self, name, base, table, start):
        self.refuse(
            (len(start) != self.cipher.width, 12),
            (base > 1_000_000, 14),
            (not any(table), 15),
            (len(self.lines) > 0, 32),
        )
        self.name, self.base, self.table, self.start = name, base, table, list(start)

    def enter(self, letter, amount):
        low, high = {"D": (1, 720), "N": (0, 1_000_000)}.get(letter, (0, 0))
        self.refuse((letter not in "DN", 16), (not low <= amount <= high, 17), (len(self.lines) >= 64, 33))
        self.lines.append([letter, amount, True])
        return len(self.lines), self.opening()

    def undo(self, number):
        self.refuse((not 1 <= number <= len(self.lines), 34))
        self.refuse((not self.lines[number - 1][2], 35))
        self.lines[number - 1][2] = False
        return self.opening()

    def relieve(self):
        delays = [(a, i + 1) for i, (c, a, live) in enumerate(self.lines) if live and c == "D"]
        self.refuse((not delays, 36))
        number = max(delays)[1]
        return number, self.undo(number)

    def in_force(self):
        return [(c, a) for c, a, live in self.lines if live]

    def opening(self):
        t = following(self.table, self.base)
        for c, a in self.in_force():
            t = following(self.table, t + a if c == "D" else max(t, a))
        return t

    def register(self):
        r = self.start
        for c, a in self.in_force():
            key = (c.encode() + bytes(3) + a.to_bytes(4, "big") + self.name).ljust(64, b"\0")
            r = self.cipher.encrypt(words(key), r)
        return to_bytes(r)

    def code(self):
        return digest(self.cipher, self.register())[0] % 1_000_000

    def sheet(self):
        os = self.in_force()
        n = len(os)
        head = n.to_bytes(2, "big") + (37 + 5 * n).to_bytes(2, "big") + self.base.to_bytes(4, "big")
        letters = "".join(c for c, _ in os).encode()
        return head + self.name + self.table + letters + b"".join(a.to_bytes(4, "big") for _, a in os)

    def seal(self):
        return to_bytes(digest(self.cipher, self.sheet()))


def do(book, call):
    """Makes a call, a tuple of its name and what it hands over, and gives its answer or its refusal."""
    try:
        return getattr(book, call[0])(*call[1:])
    except Refused as refused:
        return "refused %d" % refused.args


def show(book):
    print("    opening", book.opening(), "code", "%06d" % book.code())
    print("    register", book.register().hex(), "seal", book.seal().hex())
    print("    sheet", book.sheet().hex())


def start(cipher):
    """A start register that is not zero."""
    return [0x01234567 * (i + 1) & MASK for i in range(cipher.width)]


def main():
    for n in range(200):
        message = bytes(7 * i & 255 for i in range(n))
        assert to_bytes(digest(Shacal1, message)) == hashlib.sha1(message).digest()
        assert to_bytes(digest(Shacal2, message)) == hashlib.sha256(message).digest()

    # unlike orders, an undo in the middle, two equal delays, and an order behind the undone ones
    run = [
        ("enter", "D", 100),
        ("enter", "N", 120),
        ("enter", "D", 10),
        ("enter", "D", 100),
        ("enter", "N", 104),
        ("undo", 2),
        ("relieve",),
        ("enter", "D", 720),
        ("undo", 3),
    ]
    for cipher in Shacal1, Shacal2, Practice:
        print(cipher.__name__)
        book = Book(cipher)
        show(book)
        book.set_up(NAME, 8, OFFICE, start(cipher))
        show(book)
        for call in run:
            print("  ", *call, "->", do(book, call))
            show(book)

    print("undone and entered again")
    for cipher in Shacal1, Shacal2, Practice:
        book = Book(cipher)
        book.set_up(NAME, 8, OFFICE, start(cipher))
        for call in run[:3] + [("undo", 1), ("enter", "D", 100)]:
            answer = do(book, call)
        print("  ", cipher.__name__, answer, "code", "%06d" % book.code())

    print("64 orders")
    book = Book(Shacal2)
    book.set_up(NAME, 8, OFFICE, start(Shacal2))
    for i in range(64):
        answer = do(book, ("enter", "D", i + 1))
    print("   last answer", answer, "one more", do(book, ("enter", "D", 1)))
    show(book)


if __name__ == "__main__":
    main()
