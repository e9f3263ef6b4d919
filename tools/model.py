#!/usr/bin/env python3
"""A plain model of the console: reads lines of standard input and prints what each is to be answered.

It is written straight from the rules in docs/, with none of the box's code, for comparing runs:
    tools/model.py < SCRIPT | diff - <(target/bin/siting < SCRIPT)
"""
import re
import sys

RECORDS, PLACES = 1024, 1024
NUMBER = r'[0-9]{1,7}'


def whole(b):
    v = int.from_bytes(b, 'big')
    return v - 65536 if v >= 32768 else v


def single(b):
    p = int.from_bytes(b, 'big')
    if (p >> 23) & 255 == 255:
        return None
    return p if p < 1 << 31 else -(p & 0x7FFFFFFF)


class Box:
    def __init__(self, kind, counter):
        self.width, self.read = {'W': (2, whole), 'F': (4, single)}[kind]
        self.steps = {'A': self.shifts, 'L': self.moves}[counter]
        self.plan = None

    def open(self, w, h, r, data):
        if not (1 <= w <= 1024 and 1 <= h <= 1024 and 1 <= r <= 255):
            return 'no 2'
        if w * h > RECORDS:
            return 'no 3'
        if len(data) != w * h * self.width:
            return 'no 5'
        heights = [self.read(data[i * self.width:(i + 1) * self.width]) for i in range(w * h)]
        for i, v in enumerate(heights):
            if v is None:
                return 'no 6 %d %d' % (i % w, i // w)
        self.plan, self.heights, self.swept = (w, h, r), heights, 0
        return 'ok'

    def window(self, x, y):
        w, h, r = self.plan
        return [(a, b) for b in range(max(0, y - r), min(h, y + r + 1)) for a in range(max(0, x - r), min(w, x + r + 1))]

    def at(self, x, y):
        return self.heights[y * self.plan[0] + x]

    def sweep(self):
        if self.plan is None:
            return 'no 1'
        w, h, r = self.plan
        y = self.swept
        if y >= h:
            return 'no 7'
        if min(w, 2 * r + 1) * min(h, 2 * r + 1) > PLACES:
            return 'no 8'
        self.swept += 1
        return 'ok %d' % self.steps(y)

    def calls(self, y):
        """the counter's calls for row y: takes, puts and the ask of each column"""
        w, h, r = self.plan

        def column(x):
            rows = list(range(max(0, y - r), min(h, y + r + 1)))
            return [self.at(x, b) for b in (rows if x % 2 == 0 else reversed(rows))]

        taken = put = 0
        for x in range(w):
            while taken < x - r:
                yield from (('take', v) for v in column(taken))
                taken += 1
            while put <= min(w - 1, x + r):
                yield from (('put', v) for v in column(put))
                put += 1
            yield 'ask', self.at(x, y)

    def shifts(self, y):
        """the steps of a shift array: a height that comes new or goes for good moves each distinct one above it"""
        held, steps = {}, 0
        for name, v in self.calls(y):
            if name == 'put':
                if v not in held:
                    steps += sum(1 for u in held if u > v)
                held[v] = held.get(v, 0) + 1
            elif name == 'take':
                held[v] -= 1
                if held[v] == 0:
                    steps += sum(1 for u in held if u > v)
                    del held[v]
        return steps

    def moves(self, y):
        """the steps of a finger list: the distinct held heights above the lower end of a move and not above the higher"""
        first = self.at(0, max(0, y - self.plan[2]))
        finger = {'put': first, 'take': first, 'ask': self.at(0, y)}
        held, steps = {}, 0
        for name, v in self.calls(y):
            low, high = sorted((finger[name], v))
            steps += sum(1 for u in held if low < u <= high)
            finger[name] = v
            if name == 'put':
                held[v] = held.get(v, 0) + 1
            elif name == 'take':
                held[v] -= 1
                if held[v] == 0:
                    del held[v]
        return steps

    def cell(self, x, y):
        if self.plan is None:
            return 'no 1'
        if x >= self.plan[0] or y >= self.plan[1]:
            return 'no 4'
        return None

    def alter(self, x, y, data):
        if self.cell(x, y):
            return self.cell(x, y)
        if len(data) != self.width:
            return 'no 5'
        height = self.read(data)
        if height is None:
            return 'no 6 %d %d' % (x, y)
        self.heights[y * self.plan[0] + x] = height
        return 'ok'

    def count(self, x, y):
        return sum(1 for c in self.window(x, y) if self.at(*c) <= self.at(x, y))

    def counted(self, x, y):
        return self.cell(x, y) or ('no 9' if y >= self.swept else None)

    def tell(self, x, y):
        return self.counted(x, y) or '%d %d' % (self.count(x, y), len(self.window(x, y)))

    def share(self, x, y):
        return self.counted(x, y) or '%d' % (1000 * self.count(x, y) // (2 * self.plan[2] + 1) ** 2)

    def nearest(self, x, y):
        if self.cell(x, y):
            return self.cell(x, y)
        w, h, _ = self.plan
        higher = [((a - x) ** 2 + (b - y) ** 2, b, a) for b in range(h) for a in range(w) if self.at(a, b) > self.at(x, y)]
        if not higher:
            return 'no higher ground'
        d, b, a = min(higher)
        return '%d %d %d' % (a, b, d)


def answer(box, line):
    if len(line) > 9000:
        return 'no 13'
    text = line.decode('latin-1')
    m = re.fullmatch(r'O (%s) (%s) (%s) ((?:[0-9A-F]{2})+)' % (NUMBER, NUMBER, NUMBER), text)
    if m:
        return box.open(int(m[1]), int(m[2]), int(m[3]), bytes.fromhex(m[4]))
    m = re.fullmatch(r'A (%s) (%s) ((?:[0-9A-F]{2})+)' % (NUMBER, NUMBER), text)
    if m:
        return box.alter(int(m[1]), int(m[2]), bytes.fromhex(m[3]))
    m = re.fullmatch(r'([THN]) (%s) (%s)' % (NUMBER, NUMBER), text)
    if m:
        return {'T': box.tell, 'H': box.share, 'N': box.nearest}[m[1]](int(m[2]), int(m[3]))
    if text == 'S':
        return box.sweep()
    return 'no 13'


def main():
    box = None
    for line in sys.stdin.buffer.read().split(b'\n')[:-1]:
        if box is None:
            if re.fullmatch(rb'K [WF] [LA]', line):
                box = Box(chr(line[2]), chr(line[4]))
                print('ok')
            else:
                print('no 13')
        else:
            print(answer(box, line))


if __name__ == '__main__':
    main()
