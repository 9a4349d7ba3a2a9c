"""Lines for digest_cases: messages in hex, with and without cuts, and bad lines."""

import random

# Published: FIPS 180-4 examples, NIST's additional SHA-256 vectors, CAVS SHA256ShortMsg.
VECTORS = [
    (b"", "e3b0c44298fc1c149afbf4c8996fb92427ae41e4649b934ca495991b7852b855"),
    (b"abc", "ba7816bf8f01cfea414140de5dae2223b00361a396177a9cb410ff61f20015ad"),
    (
        b"abcdbcdecdefdefgefghfghighijhijkijkljklmklmnlmnomnopnopq",
        "248d6a61d20638b8e5c026930c3e6039a33ce45964ff2167f6ecedd419db06c1",
    ),
    (
        b"abcdefghbcdefghicdefghijdefghijkefghijklfghijklmghijklmn"
        b"hijklmnoijklmnopjklmnopqklmnopqrlmnopqrsmnopqrstnopqrstu",
        "cf5b16a778af8380036ce59e7b0492370b249b11e8f07a51afac45037afee9d1",
    ),
    (bytes(55), "02779466cdec163811d078815c633f21901413081449002f24aa3e80f0b88ef7"),
    (bytes(56), "d4817aa5497628e7c77e6b606107042bbba3130888c5f47a375e6179be789fbb"),
    (bytes(57), "65a16cb7861335d5ace3c60718b5052e44660726da4cd13bb745381b235a1785"),
    (bytes(64), "f5a5fd42d16a20302798ef6ed309979b43003d2320d9f0e8ea9831a92759fb4b"),
    (bytes(1000), "541b3e9daa09b20bf85fa273e5cbd3e80185aa4ec298e765db87742b70138a53"),
    (b"A" * 1000, "c2e686823489ced2017f6059b8b239318b6364f6dcd835d0a519105a1eadd6e4"),
    (b"U" * 1005, "f4d62ddec0f3dd90ea1380fa16a5ff8dc4c54b21740650f24afc4120903552b0"),
] + [
    (bytes.fromhex(message), digest)
    for message, digest in [
        ("bd", "68325720aabd7c82f30f554b313d0570c95accbb7dc4b5aae11204c08ffe732b"),
        ("c98c8e55", "7abc22c0ae5af26ce93dbb94433a0e0b2e119d014f8e7f65bd56c61ccccd9504"),
        ("d3", "28969cdfa74a12c82f3bad960b0b000aca2ac329deea5c2328ebc6f2ba9802c1"),
        ("11af", "5ca7133fa735326081558ac312c620eeca9970d1e70a4b95533d956f072d1f98"),
        ("b4190e", "dff2e73091f6c05e528896c4c831b9448653dc2ff043528f6769437bc7b975c2"),
        ("74ba2521", "b16aa56be3880d18cd41e68384cf1ec8c17680c45a02b1575dc1518923ae8b0e"),
        ("c299209682", "f0887fe961c9cd3beab957e8222494abb969b1ce4c6557976df8b0f6d20e9166"),
        ("e1dc724d5621", "eca0a060b489636225b4fa64d267dabbe44273067ac679f20820bddc6b6a90ac"),
        ("06e076f5a442d5", "3fd877e27450e6bbd5d74bb82f9870c64c66e109418baa8e6bbcff355e287926"),
        ("5738c929c4f4ccb6", "963bb88f27f512777aab6c8b1a02c70ec0ad651d428f870036e1917120fb48bf"),
        ("3334c58075d3f4139e", "078da3d77ed43bd3037a433fd0341855023793f9afd08b4b08ea1e5597ceef20"),
        ("74cb9381d89f5aa73368", "73d6fad1caaa75b43b21733561fd3958bdc555194a037c2addec19dc2d7a52bd"),
        ("76ed24a0f40a41221ebfcf", "044cef802901932e46dc46b2545e6c99c0fc323a0ed99b081bda4216857f38ac"),
        ("9baf69cba317f422fe26a9a0", "fe56287cd657e4afc50dba7a3a54c2a6324b886becdcd1fae473b769e551a09b"),
        ("68511cdb2dbbf3530d7fb61cbc", "af53430466715e99a602fc9f5945719b04dd24267e6a98471f7a7869bd3b4313"),
        ("af397a8b8dd73ab702ce8e53aa9f", "d189498a3463b18e846b8ab1b41583b0b7efc789dad8a7fb885bbf8fb5b45c5c"),
        ("0a27847cdc98bd6f62220b046edd762b", "80c25ec1600587e7f28b18b1b18e3cdc89928e39cab3bc25e4d4a4c139bcedc4"),
        ("1b503fb9a73b16ada3fcf1042623ae7610", "d5c30315f72ed05fe519a1bf75ab5fd0ffec5ac1acb0daf66b6b769598594509"),
        ("59eb45bbbeb054b0b97334d53580ce03f699", "32c38c54189f2357e96bd77eb00c2b9c341ebebacc2945f97804f59a93238288"),
    ]
]

# Around a block's end, and around the place where the length no longer fits the last block.
BORDERS = [0, 1, 54, 55, 56, 57, 63, 64, 65, 118, 119, 120, 121, 127, 128, 129]


def line(message, pieces=None):
    spelled = message.hex() if message else "-"
    return spelled.encode() + (b"" if pieces is None else b" " + ",".join(map(str, pieces)).encode())


def cut_lines(rng):
    """Good lines with pieces."""
    for length in BORDERS:
        message = rng.randbytes(length)
        yield line(message, [0])
        yield line(message, [length])
        yield line(message, [0, length, 0])
        yield line(message, [1] * length + [0])
        yield line(message, [0, 1] * length + [0])
    for length in BORDERS + [200, 256, 300]:
        for first in BORDERS:
            if first < length:
                yield line(rng.randbytes(length), [first])
    for first in BORDERS[2:]:
        for second in BORDERS[2:9]:
            yield line(rng.randbytes(first + second + rng.randrange(3)), [first, second])
    for size in (2, 3, 7, 55, 56, 63, 64, 65, 119, 120, 127, 128):
        yield line(rng.randbytes(300), [size] * (300 // size))
    for _ in range(250):
        length = rng.randrange(401)
        pieces = []
        while sum(pieces) < length and rng.randrange(12):
            pieces.append(rng.choice([0, rng.randrange(4), rng.randrange(70), rng.randrange(length + 1)]))
        while sum(pieces) > length:
            pieces.pop()
        yield line(rng.randbytes(length), pieces or None)
    yield long_line(65534)
    yield long_line(65535)
    yield line(rng.randbytes(1000), [1] * 1000)
    yield line(rng.randbytes(8191))
    yield line(rng.randbytes(8191), [8191])
    yield line(rng.randbytes(8191), [8190, 1, 0])
    yield line(bytes(8192))
    yield line(rng.randbytes(8192), [8192])
    yield line(rng.randbytes(8192), [64] * 128)
    yield line(rng.randbytes(8192), [63, 1, 64, 65, 55, 8, 7936])


def long_line(size):
    """A line of size bytes: a message of one byte or none, in very many empty pieces."""
    message = b"- 0" if size % 2 else b"00 0"
    return message + b",0" * ((size - len(message)) // 2)


def bad_lines():
    rng = random.Random(2)
    yield b""
    yield b"bad line"
    # "_" stands for a space.
    for hexed in (
        "_ __ 0 000 abc A0 0A aB 0g g0 0` 0/ 0: 0@ 0G 0x00 00_ 00__ _00 -- -00 00- -_ _- -__0 +00 00\r -\r 00\t 00\t1 "
        '00, 00,1 00;1 \x00 0\x00 00\x00 é 00é ００ "00" 00_0\r -_0\r'
    ).split(" "):
        yield hexed.replace("_", " ").encode()
    yield b"aabbcc "
    for pieces in (
        "_1 1_ __1 , ,1 1, 1,,1 ,, 0, ,0 1_1 1,_1 1_,1 1;1 1.0 1. +1 -1 -0 00 01 0001 0,00 00,0 1,01 a 0x1 1e0 1a - "
        "4 3,1 1,1,1,1 0,0,4 2,2 9999 8192 10000 65536 65539 00000 00003 0,10000 ١ 1\x00 \x00 "
        "4294967296 4294967297 18446744073709551616 18446744073709551617"
    ).split(" "):
        yield b"aabbcc " + pieces.replace("_", " ").encode()
    for pieces in ("9999," * 20 + "9999", "1" * 400, "0" * 400):
        yield b"aabbcc " + pieces.encode()
    for pieces in ["1", "0,1", "1,0", "00", "", "-", "9999"]:
        yield b"- " + pieces.encode()
    yield b"\xff"
    yield b"00 \xff"
    yield rng.randbytes(8193).hex().encode()
    yield rng.randbytes(8192).hex().encode() + b"0"
    yield rng.randbytes(8193).hex().encode() + b" 8192,1"
    yield rng.randbytes(8192).hex().encode() + b" 8192,1"
    yield rng.randbytes(8191).hex().encode() + b" 8192"
    yield long_line(65536)
    yield long_line(65537)


def lines():
    rng = random.Random(1)
    good = [line(message) for message, _ in VECTORS]
    good += [line(b"", [0] * n) for n in (1, 3, 500)]
    good += [line(b"abc", pieces) for pieces in ([1, 1], [1, 1, 1], [0, 3, 0], [2])]
    good += [line(bytes([b])) for b in range(256)]
    good += [line(rng.randbytes(n)) for n in range(301)]
    return good + list(bad_lines()) + list(cut_lines(rng))
