"""SHA-256, from FIPS 180-4. Words are numbers below 2^32, additions are modulo 2^32 (section 3.2)."""

from functools import lru_cache

WORD = 0xFFFFFFFF


def primes(count):
    found = []
    n = 2
    while len(found) < count:
        if all(n % p for p in found):
            found.append(n)
        n += 1
    return found


def fraction_of_root(n, degree):
    """The first 32 bits of the fractional part of the root of n: the whole root of n * 2^(32 * degree), modulo 2^32."""
    target = n << (32 * degree)
    low, high = 0, target
    while low < high:
        middle = (low + high + 1) // 2
        if middle**degree <= target:
            low = middle
        else:
            high = middle - 1
    return low & WORD


K = [fraction_of_root(p, 3) for p in primes(64)]  # section 4.2.2: cube roots of the first 64 primes
H0 = [fraction_of_root(p, 2) for p in primes(8)]  # section 5.3.3: square roots of the first 8 primes


def rotr(x, n):  # section 3.2
    return (x >> n) | (x << (32 - n)) & WORD


def ch(x, y, z):  # 4.2
    return (x & y) ^ (~x & z)


def maj(x, y, z):  # 4.3
    return (x & y) ^ (x & z) ^ (y & z)


def big0(x):  # 4.4
    return rotr(x, 2) ^ rotr(x, 13) ^ rotr(x, 22)


def big1(x):  # 4.5
    return rotr(x, 6) ^ rotr(x, 11) ^ rotr(x, 25)


def small0(x):  # 4.6
    return rotr(x, 7) ^ rotr(x, 18) ^ (x >> 3)


def small1(x):  # 4.7
    return rotr(x, 17) ^ rotr(x, 19) ^ (x >> 10)


def padded(message):
    """Section 5.1.1: a one bit, zero bits up to 448 modulo 512, the length in bits as 64 bits."""
    zeros = (55 - len(message)) % 64
    return message + b"\x80" + bytes(zeros) + (8 * len(message)).to_bytes(8, "big")


def compressed(state, block):
    """Section 6.2.2: one block of 64 bytes."""
    w = [int.from_bytes(block[4 * t : 4 * t + 4], "big") for t in range(16)]
    for t in range(16, 64):
        w.append((small1(w[t - 2]) + w[t - 7] + small0(w[t - 15]) + w[t - 16]) & WORD)
    a, b, c, d, e, f, g, h = state
    for t in range(64):
        t1 = (h + big1(e) + ch(e, f, g) + K[t] + w[t]) & WORD
        t2 = (big0(a) + maj(a, b, c)) & WORD
        a, b, c, d, e, f, g, h = (t1 + t2) & WORD, a, b, c, (d + t1) & WORD, e, f, g
    return [(x + y) & WORD for x, y in zip(state, (a, b, c, d, e, f, g, h))]


@lru_cache(maxsize=4096)
def sha256(message):
    """The digest of a message of whole bytes, in lower-case hex."""
    data = padded(message)
    state = H0
    for i in range(0, len(data), 64):
        state = compressed(state, data[i : i + 64])
    return "".join("%08x" % x for x in state)
