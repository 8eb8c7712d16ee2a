#!/usr/bin/env python3
"""traces.py DIR: writes the benchmark traces into DIR. The same bytes every time."""
import os, random, struct, sys

LIMIT = 65536
ISSUE, FORWARD, MODULE, RETURN, COLLECT = range(5)
LOAD, SWAP, ADD, MASK = range(4)

def record(kind, body): return struct.pack('<HH', len(body), kind) + body
def shape(k, q, w): return record(1, bytes([k, q, w]))
def word(a, v): return record(2, struct.pack('<BQ', a, v))
def request(e, op, a, x=0, y=0): return record(3, struct.pack('<BBBQQ', e, op, a, x, y))
def event(what, level, pos): return record(4, bytes([what, level, pos]))
def drain(n): return record(5, struct.pack('<H', n))

def any_request(r, k, addresses, kinds):
    op = r.choice(kinds)
    x = 0 if op == LOAD else r.getrandbits(64)
    y = r.getrandbits(64) if op == MASK else 0
    return request(r.randrange(1 << k), op, r.choice(addresses), x, y)

def any_event(r, k):
    while True:
        what = r.randrange(5)
        if what == FORWARD and k == 1: continue
        level = {ISSUE: 0, COLLECT: 0, MODULE: k}.get(what)
        if level is None: level = r.randrange(1, k if what == FORWARD else k + 1)
        return event(what, level, r.randrange(1 << k))

def fill(t, make):
    """t and as many records from make as fit."""
    t = bytearray(t)
    while True:
        more = make()
        if len(t) + len(more) > LIMIT: return bytes(t)
        t += more

def hot():
    r = random.Random(1)
    t = shape(4, 4, 8) + b''.join(word(a, 1000 + a) for a in range(4))
    for i in range(256):
        t += any_request(r, 4, [5] * 6 + [21, 77], [ADD] * 15 + [LOAD])
    return t + drain(65535)

def events():
    r = random.Random(2)
    t = shape(4, 2, 4)
    for i in range(256): t += any_request(r, 4, range(16), range(4))
    return fill(t, lambda: any_event(r, 4))

def worst():
    """All to module 0, Q = 1, no merging: 265 = R + 2k + 1 rounds, 10 steps a request, the most a
    search found. Before the drain goes to the end, events that try to issue and are blocked."""
    r = random.Random(3)
    t = shape(4, 1, 0)
    for i in range(256): t += request(i % 16, ADD, 16 * (i % 16), i + 1)
    t += drain(8)  # the tree to module 0 is full and replies are on their way
    end = drain(65535)
    stuck = [event(ISSUE, 0, e) for e in range(16)]
    while len(t) + 7 + len(end) <= LIMIT: t += r.choice(stuck)
    return t + end

def parse():
    """Everything is answered at once; the rest costs only checking."""
    t = shape(4, 4, 8) + request(0, ADD, 0, 1) + drain(65535)
    return fill(t, lambda: drain(1))

def idle():
    """Events that do nothing while a request is still waiting, so none may be passed over unseen."""
    r = random.Random(4)
    t = shape(4, 4, 8) + request(0, ADD, 0, 1)
    def nothing():
        while True:
            e = any_event(r, 4)
            if e[4] != ISSUE or e[6] != 0: return e
    return fill(t, nothing)

def tiny():
    return (shape(1, 2, 2) + word(5, 100) + request(0, ADD, 5, 5) + request(1, ADD, 5, 7)
            + event(ISSUE, 0, 0) + event(ISSUE, 0, 1) + event(MODULE, 1, 1)
            + event(RETURN, 1, 1) * 2 + event(COLLECT, 0, 0) + event(COLLECT, 0, 1))

if __name__ == '__main__':
    out = sys.argv[1]
    os.makedirs(out, exist_ok=True)
    for make in (hot, events, worst, parse, idle, tiny):
        with open(os.path.join(out, make.__name__ + '.trace'), 'wb') as f: f.write(make())
