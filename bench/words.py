#!/usr/bin/env python3
"""How many words of the SHA-256 message schedule the compiled code holds at a time.

Runs the machine code of digest's block function (target/staticlib/libcapi.a, a copy of what `rt lib` makes in crates/capi_c) on a random block in a small simulator that notes
every read and write of a register or of the stack. A place holds word t from the moment that its value is written there to the last read before the next
write. Blocks are random, so two words or a word and another value agree by chance once in millions. Needs objdump and ar. Exits with 1 where more than
sixteen are held (02, Wish 4): no contract can say it, so examples/check runs this in the gate. The library may stand in the folder PLAVDROSA_LIB.

    bench/words.py [BLOCKS]
"""
import os
import random
import re
import subprocess
import sys
import tempfile
from pathlib import Path

ROOT = Path(__file__).resolve().parent.parent
LIBRARY = Path(os.environ.get("PLAVDROSA_LIB") or ROOT / "target/staticlib").resolve() / "libcapi.a"
FUNCTION = "digest::block::block_at"
MOST = 16
MASK = 0xFFFFFFFF
HASH, BLOCK, STACK = 0x10000, 0x20000, 0x7FFF0000

WIDTH = {}
for name in "ax bx cx dx si di bp sp".split():
    WIDTH["r" + name], WIDTH["e" + name], WIDTH[name] = ("r" + name, 8), ("r" + name, 4), ("r" + name, 2)
for low, name in zip("al bl cl dl sil dil bpl".split(), "rax rbx rcx rdx rsi rdi rbp".split()):
    WIDTH[low] = (name, 1)
for n in range(8, 16):
    for end, size in (("", 8), ("d", 4), ("w", 2), ("b", 1)):
        WIDTH[f"r{n}{end}"] = (f"r{n}", size)
for n in range(16):
    WIDTH[f"xmm{n}"] = (f"xmm{n}", 16)


def rotr(x, n):
    return (x >> n | x << (32 - n)) & MASK


def schedule(block):
    w = [int.from_bytes(block[4 * i : 4 * i + 4], "big") for i in range(16)]
    for t in range(16, 64):
        s0 = rotr(w[t - 15], 7) ^ rotr(w[t - 15], 18) ^ w[t - 15] >> 3
        s1 = rotr(w[t - 2], 17) ^ rotr(w[t - 2], 19) ^ w[t - 2] >> 10
        w.append((s1 + w[t - 7] + s0 + w[t - 16]) & MASK)
    return w


def compress(h, w):
    table = (ROOT / "crates/digest/specs/Block.antt").read_text().split("\nK =", 1)[1].split("[]", 1)[0]
    k = [int(x, 16) for x in re.findall(r"0x([0-9a-f]{8})", table)]
    a, b, c, d, e, f, g, last = h
    for t in range(64):
        t1 = last + (rotr(e, 6) ^ rotr(e, 11) ^ rotr(e, 25)) + (e & f ^ ~e & MASK & g) + k[t] + w[t]
        t2 = (rotr(a, 2) ^ rotr(a, 13) ^ rotr(a, 22)) + (a & b ^ a & c ^ b & c)
        a, b, c, d, e, f, g, last = (t1 + t2) & MASK, a, b, c, (d + t1) & MASK, e, f, g
    return [(x + y) & MASK for x, y in zip(h, [a, b, c, d, e, f, g, last])]


def instructions():
    with tempfile.TemporaryDirectory() as folder:
        subprocess.run(["ar", "x", LIBRARY], cwd=folder, check=True)
        found = next(Path(folder).glob("*.o"))
        text = subprocess.run(
            ["objdump", "-d", "--no-show-raw-insn", f"--disassemble={FUNCTION}", found], capture_output=True, text=True, check=True
        ).stdout
    lines = (re.match(r"\s*[0-9a-f]+:\s+(\S+)\s*([^#]*)", line) for line in text.splitlines())
    return [(m.group(1), operands(m.group(2))) for m in lines if m]


def operands(text):
    return [o.strip() for o in re.split(r",(?![^(]*\))", text) if o.strip()]


class Machine:
    def __init__(self, block, h):
        self.regs = {name: random.getrandbits(64) for name, _ in WIDTH.values()}
        self.memory, self.trace, self.time = {}, [], 0
        for i in range(8):
            self.store(HASH + 4 * i, 4, h[i])
        for i in range(64):
            self.memory[BLOCK + i] = block[i]
        # the hash value and the block
        self.regs.update(rsp=STACK, rdi=HASH, rsi=BLOCK)

    def load(self, at, size):
        return sum(self.memory.get(at + i, 0) << 8 * i for i in range(size))

    def store(self, at, size, value):
        for i in range(size):
            self.memory[at + i] = value >> 8 * i & 255

    def note(self, kind, place, value):
        self.trace.append((self.time, kind, place, value & MASK))

    def address(self, operand):
        disp, inside = re.match(r"([^(]*)\(([^)]*)\)$", operand).groups()
        parts = inside.split(",")
        at = int(disp, 16) if disp else 0
        for name, scale in ((parts[0], 1), (parts[1] if len(parts) > 1 else "", int(parts[2]) if len(parts) > 2 else 1)):
            if name:
                self.note("read", name[1:], self.regs[name[1:]])
                at += self.regs[name[1:]] * scale
        return at % 2**64

    def get(self, operand, size):
        if operand[0] == "$":
            return int(operand[1:], 16) % 256**size
        if operand[0] == "%":
            name, own = WIDTH[operand[1:]]
            self.note("read", name, self.regs[name])
            return self.regs[name] % 256**own
        at = self.address(operand)
        for i in range(0, size, 4):
            self.note("read", at + i, self.load(at + i, 4))
        return self.load(at, size)

    def put(self, operand, size, value):
        value %= 256**size
        if operand[0] == "%":
            name, own = WIDTH[operand[1:]]
            kept = self.regs[name] - self.regs[name] % 256**own if own < 4 else 0
            self.regs[name] = kept + value
            self.note("write", name, self.regs[name])
            return
        at = self.address(operand)
        self.store(at, size, value)
        for i in range(0, size, 4):
            self.note("write", at + i, self.load(at + i, 4))

    def step(self, op, args):
        self.time += 1
        size = next((WIDTH[a[1:]][1] for a in reversed(args) if a[0] == "%"), 8 if op.endswith("q") else 4)
        plain = op[:-1] if op != "shld" and op[:-1] in ("mov", "add", "xor", "and", "or", "sub", "rol", "shr", "shl", "not") else op
        two = {"add": int.__add__, "xor": int.__xor__, "and": int.__and__, "or": int.__or__, "sub": int.__sub__}
        if plain in ("mov", "movdqu", "movdqa"):
            self.put(args[1], size, self.get(args[0], size))
        elif plain in two:
            x, y = self.get(args[0], size), self.get(args[1], size)
            self.put(args[1], size, two[plain](y, x))
        elif plain in ("rol", "shr", "shl"):
            n = int(args[0][1:], 16) if len(args) == 2 else 1
            x = self.get(args[-1], size)
            self.put(args[-1], size, {"rol": x << n | x >> 8 * size - n, "shr": x >> n, "shl": x << n}[plain])
        elif plain == "shld":
            n = int(args[0][1:], 16)
            x, y = self.get(args[1], size), self.get(args[2], size)
            self.put(args[2], size, y << n | x >> 8 * size - n)
        elif plain == "pinsrd":
            lane, x, y = 32 * int(args[0][1:], 16), self.get(args[1], 4), self.get(args[2], 16)
            self.put(args[2], 16, y & ~(MASK << lane) | x << lane)
        elif plain == "not":
            self.put(args[0], size, ~self.get(args[0], size))
        elif plain == "bswap":
            self.put(args[0], size, int.from_bytes(self.get(args[0], size).to_bytes(size, "little"), "big"))
        elif plain == "lea":
            self.put(args[1], size, self.address(args[0]))
        elif plain == "movzbl":
            self.put(args[1], 4, self.get(args[0], 1))
        elif plain == "movd":
            self.put(args[1], size, self.get(args[0], 4))
        elif plain == "push":
            self.regs["rsp"] -= 8
            self.store(self.regs["rsp"], 8, self.regs[args[0][1:]])
        elif plain == "pop":
            self.regs[args[0][1:]] = self.load(self.regs["rsp"], 8)
            self.regs["rsp"] += 8
        elif plain in ("punpckldq", "punpcklqdq", "paddd"):
            x, y = self.get(args[0], 16), self.get(args[1], 16)
            x, y = ([v >> 32 * i & MASK for i in range(4)] for v in (x, y))
            lanes = {
                "punpckldq": [y[0], x[0], y[1], x[1]],
                "punpcklqdq": [y[0], y[1], x[0], x[1]],
                "paddd": [(p + q) & MASK for p, q in zip(x, y)],
            }[plain]
            self.put(args[1], 16, sum(v << 32 * i for i, v in enumerate(lanes)))
        else:
            sys.exit(f"the simulator does not know {op} {', '.join(args)}")


def held(trace, w):
    """The words that are held, for each instruction."""
    number = {value: t for t, value in enumerate(w)}
    spans, now = [], {}

    def leave(place):
        t, begin, end = now.pop(place, (0, 0, 0))
        spans.append((t, begin, end))

    for time, kind, place, value in trace:
        if place in range(BLOCK, BLOCK + 64):
            continue
        if kind == "write":
            leave(place)
            if value in number:
                now[place] = (number[value], time, time)
        elif place in now:
            now[place] = (*now[place][:2], time)
    for place in list(now):
        leave(place)
    words = {}
    for t, begin, end in spans:
        for time in range(begin, end):
            words.setdefault(time, set()).add(t)
    return words


def main():
    code = instructions()
    blocks = int(sys.argv[1]) if len(sys.argv) > 1 else 3
    for seed in range(blocks):
        random.seed(seed)
        block, h = random.randbytes(64), [random.getrandbits(32) for _ in range(8)]
        machine, w = Machine(block, h), schedule(block)
        for op, args in code:
            if op == "ret":
                break
            machine.step(op, args)
        if [machine.load(HASH + 4 * i, 4) for i in range(8)] != compress(h, w):
            sys.exit("the simulated code does not give the standard's hash value")
        most = max(len(words) for words in held(machine.trace, w).values())
        low = min(p for _, _, p, _ in machine.trace if isinstance(p, int) and STACK - 4096 < p < STACK)
        print(f"block {seed}: {machine.time} instructions, at most {most} words held, {STACK - low} bytes of stack below the return address")
        if most > MOST:
            sys.exit(f"more than {MOST} words of the schedule are held")


main()
