#!/usr/bin/env python3
"""A simple planner of our own, written without looking at the proved one, to compare with.

  tools/reference.py grid|list < frames        prints the answers
  tools/reference.py compare [ROUNDS]          runs random inputs through this and through
                                               the programs planner_grid and planner_list, which
                                               `rt run` has built in their folders
"""
import random
import subprocess
import sys

HEX = b"0123456789abcdefABCDEF"
LIMIT = 32768


class Session:
    def __init__(self, store):
        self.store = store
        self.order = None
        self.laid = set()
        self.struck = set()

    def capacity(self):
        return 4096 if self.store == "list" else self.order * (self.order - 1) // 2

    def make(self, n):
        if not 1 <= n <= 200:
            return 1
        if self.order is not None:
            return 14
        self.order = n

    def edit(self, kind, u, v):
        if self.order is None:
            return 14
        if u >= self.order or v >= self.order:
            return 3
        if u == v:
            return 4
        edge = (min(u, v), max(u, v))
        if kind != 5 and edge in self.struck:
            return 5
        if kind == 2:
            if edge in self.laid:
                return 6
            if len(self.laid) == self.capacity():
                return 9
            self.laid.add(edge)
        elif kind == 3:
            if edge not in self.laid:
                return 7
            self.laid.remove(edge)
        elif kind == 4:
            if edge not in self.laid:
                return 7
            if len(self.struck) == 16:
                return 9
            self.struck.add(edge)
        else:
            if edge not in self.struck:
                return 8
            self.struck.remove(edge)

    def line(self, number, text):
        def refuse(refusal, layer, detail=0):
            return "FF%02X%02X%04X%04X" % (refusal, layer, number, detail)

        for column, c in enumerate(text, 1):
            if c not in HEX:
                return refuse(12, 1, column)
        if len(text) % 2:
            return refuse(12, 1, len(text))
        frame = bytes.fromhex(text.decode())
        if not frame or frame[0] not in (1, 2, 3, 4, 5) or len(frame) != (2 if frame[0] == 1 else 3):
            return refuse(13, 2)
        refusal = self.make(frame[1]) if frame[0] == 1 else self.edit(*frame)
        return refuse(refusal, 3) if refusal else "%02X" % (0x80 + frame[0])


def answers(store, data):
    if len(data) > LIMIT:
        return "FF020300000000\n"
    lines = data.split(b"\n")
    if lines[-1] == b"":
        lines.pop()
    session = Session(store)
    return "".join(session.line(i, text) + "\n" for i, text in enumerate(lines, 1))


def random_line(rng, n):
    kind = rng.choice([1, 2, 2, 2, 2, 3, 4, 4, 5, 5]) if rng.random() < 0.97 else rng.randrange(256)
    top = n + 1 if rng.random() < 0.05 else n
    payload = [rng.randrange(max(top, 1)) for _ in range(2)]
    if kind == 1:
        payload = [rng.choice([0, n, n, 200, 201, 255])]
    if rng.random() < 0.02:
        payload = payload[: rng.randrange(3)] + [0] * rng.randrange(2)
    text = bytearray(bytes([kind] + payload).hex().encode())
    if rng.random() < 0.3:
        text = bytearray(bytes(text).upper())
    if rng.random() < 0.03 and text:
        text[rng.randrange(len(text))] = rng.randrange(256)
    if rng.random() < 0.02:
        text = text[: rng.randrange(len(text) + 1)]
    return bytes(text)


def random_input(rng):
    n = rng.choice([1, 2, 3, 5, 8, 13, 40, 199, 200])
    lines = [random_line(rng, n) for _ in range(rng.choice([0, 1, 5, 40, 400, 4600]))]
    if rng.random() < 0.7:
        lines.insert(rng.randrange(min(3, len(lines) + 1)), b"01%02x" % n)
    data = b"\n".join(lines) + rng.choice([b"", b"\n"])
    if rng.random() < 0.05:
        data = (data * 100)[: rng.choice([LIMIT - 1, LIMIT, LIMIT + 1])]
    return data


def compare(rounds):
    for seed in range(rounds):
        data = random_input(random.Random(seed))
        for store in ("grid", "list"):
            run = subprocess.run([f"crates/planner_{store}/out/planner_{store}"], input=data, capture_output=True)
            if run.returncode or run.stdout.decode() != answers(store, data):
                print(f"seed {seed}, {store}: differs")
                return 1
    print(f"{rounds} inputs, the same answers")
    return 0


if __name__ == "__main__":
    if sys.argv[1] == "compare":
        sys.exit(compare(int(sys.argv[2]) if len(sys.argv) > 2 else 300))
    sys.stdout.write(answers(sys.argv[1], sys.stdin.buffer.read()))
