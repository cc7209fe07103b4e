#!/usr/bin/env python3
"""Writes a DIMACS formula to standard output: gen.py FAMILY NUMBERS... Equal words give equal bytes."""
import itertools
import random
import sys


class Cnf:
    def __init__(self):
        self.variables = 0
        self.clauses = []

    def var(self):
        self.variables += 1
        return self.variables

    def add(self, *literals):
        self.clauses.append(list(literals))

    def write(self, comment):
        lines = [f"c {comment}", f"p cnf {self.variables} {len(self.clauses)}"]
        lines += [" ".join(map(str, clause)) + " 0" for clause in self.clauses]
        sys.stdout.write("\n".join(lines) + "\n")


def php(holes):
    """One pigeon more than holes, and no two in one hole."""
    f = Cnf()
    sits = [[f.var() for _ in range(holes)] for _ in range(holes + 1)]
    for row in sits:
        f.add(*row)
    for j in range(holes):
        for i in range(holes + 1):
            for k in range(i):
                f.add(-sits[i][j], -sits[k][j])
    return f


def tseitin(points, degree, seed):
    """Parities on a random regular graph whose charges add up to an odd number (Tseitin, Urquhart)."""
    r = random.Random(seed)
    f = Cnf()
    while True:
        ends = [v for v in range(points) for _ in range(degree)]
        r.shuffle(ends)
        edges = list(zip(ends[::2], ends[1::2]))
        if all(a != b for a, b in edges) and len({frozenset(e) for e in edges}) == len(edges):
            break
    at = [[] for _ in range(points)]
    for a, b in edges:
        v = f.var()
        at[a].append(v)
        at[b].append(v)
    for v in range(points):
        charge = 1 if v == 0 else 0
        for signs in itertools.product((0, 1), repeat=len(at[v])):
            if sum(signs) % 2 != charge:
                f.add(*[(-x if sign else x) for x, sign in zip(at[v], signs)])
    return f


def color(n, colors, sets):
    """No coloring of 1..n gives all of one set one color."""
    f = Cnf()
    if colors == 2:
        for _ in range(n):
            f.var()
        for s in sets:
            f.add(*s)
            f.add(*[-x for x in s])
        return f
    x = [[f.var() for _ in range(colors)] for _ in range(n)]
    for i in range(n):
        f.add(*x[i])
        for a in range(colors):
            for b in range(a):
                f.add(-x[i][a], -x[i][b])
    for s in sets:
        for a in range(colors):
            f.add(*[-x[i - 1][a] for i in s])
    return f


def schur(n, colors):
    """Sums a + b = c of one color."""
    return color(n, colors, [sorted({a, b, a + b}) for a in range(1, n + 1) for b in range(a, n + 1 - a)])


def squares(n, modulus):
    """Two colors, and a*a + b*b = c*c to a modulus."""
    triples = itertools.combinations(range(1, n + 1), 3)
    return color(n, 2, [[a, b, c] for a, b, c in triples if (a * a + b * b - c * c) % modulus == 0])


def vdw2(n, first, second):
    """Two colors, and arithmetic progressions of these lengths (van der Waerden)."""
    f = Cnf()
    f.variables = n
    for length, sign in ((first, 1), (second, -1)):
        for d in range(1, n):
            for a in range(1, n + 1 - d * (length - 1)):
                f.add(*[sign * (a + d * i) for i in range(length)])
    return f


def rand3(n, clauses, seed):
    """Random clauses of three literals."""
    r = random.Random(seed)
    f = Cnf()
    f.variables = n
    for _ in range(clauses):
        f.add(*[v * r.choice((1, -1)) for v in r.sample(range(1, n + 1), 3)])
    return f


def sparse(n, clauses, more, more_clauses, seed):
    """A hard random core, and a big sparse part that leans on it: after each cube it has many pure literals."""
    f = rand3(n, clauses, seed)
    r = random.Random(seed + 1)
    f.variables += more
    for _ in range(more_clauses):
        v = r.sample(range(n + 1, n + more + 1), 2)
        v += [r.choice((r.randint(1, n), r.randint(n + 1, n + more)))]
        f.add(*[x * r.choice((1, -1)) for x in v])
    return f


class Circuit(Cnf):
    """Gates as clauses (Tseitin). A gate with equal inputs is made once."""

    def __init__(self):
        super().__init__()
        self.true = self.var()
        self.add(self.true)
        self.known = {}

    def and_(self, a, b):
        t = self.true
        if a == -t or b == -t or a == -b:
            return -t
        if a == t:
            return b
        if b == t or a == b:
            return a
        key = ("and", min(a, b), max(a, b))
        if key not in self.known:
            g = self.var()
            self.known[key] = g
            self.add(-g, a)
            self.add(-g, b)
            self.add(g, -a, -b)
        return self.known[key]

    def or_(self, a, b):
        return -self.and_(-a, -b)

    def xor(self, a, b):
        t = self.true
        if a == t:
            return -b
        if b == t:
            return -a
        if a == -t:
            return b
        if b == -t:
            return a
        if a == b:
            return -t
        if a == -b:
            return t
        sign = (-1 if a < 0 else 1) * (-1 if b < 0 else 1)
        a, b = abs(a), abs(b)
        key = ("xor", min(a, b), max(a, b))
        if key not in self.known:
            g = self.var()
            self.known[key] = g
            self.add(-g, a, b)
            self.add(-g, -a, -b)
            self.add(g, -a, b)
            self.add(g, a, -b)
        return sign * self.known[key]

    def choose(self, which, a, b):
        return self.or_(self.and_(which, a), self.and_(-which, b))

    def full(self, a, b, c):
        """Sum and carry."""
        x = self.xor(a, b)
        return self.xor(x, c), self.or_(self.and_(a, b), self.and_(x, c))

    def other_full(self, a, b, c):
        """The same in another shape: the carry as the majority of three."""
        return self.xor(a, self.xor(b, c)), self.or_(self.and_(a, self.or_(b, c)), self.and_(b, c))

    def ripple(self, x, y):
        return self.carried(x, y, self.full, -self.true)

    def carried(self, x, y, adder, carry):
        """Bit by bit, each with the carry of the one before; the last one's carry behind them."""
        out = []
        for a, b in zip(x, y):
            s, carry = adder(a, b, carry)
            out.append(s)
        return out + [carry]

    def carry_select(self, x, y, block):
        """Blocks that are each added up twice, without a carry and with one; the carry of the block before chooses."""
        carry = -self.true
        out = []
        for i in range(0, len(x), block):
            a, b = x[i : i + block], y[i : i + block]
            without = self.carried(a, b, self.other_full, -self.true)
            with_one = self.carried(a, b, self.other_full, self.true)
            out += [self.choose(carry, p, q) for p, q in zip(with_one[:-1], without[:-1])]
            carry = self.choose(carry, with_one[-1], without[-1])
        return out + [carry]


def miter_mul(n):
    """An array multiplier against one that adds up columns, with its operands swapped: do they ever differ?"""
    f = Circuit()
    a = [f.var() for _ in range(n)]
    b = [f.var() for _ in range(n)]
    zero = -f.true
    rows = [zero] * (2 * n)
    for i in range(n):
        row = [zero] * i + [f.and_(a[j], b[i]) for j in range(n)] + [zero] * (n - i)
        rows = f.ripple(rows, row)[: 2 * n]
    columns = [[] for _ in range(2 * n + 1)]
    for i in range(n):
        for j in range(n):
            columns[i + j].append(f.and_(b[i], a[j]))
    out = []
    for k in range(2 * n):
        c = columns[k]
        while len(c) > 1:
            third = c.pop(2) if len(c) > 2 else zero
            s, carry = f.other_full(c.pop(0), c.pop(0), third)
            c.append(s)
            columns[k + 1].append(carry)
        out.append(c[0] if c else zero)
    f.clauses.append([f.xor(p, r) for p, r in zip(rows, out)])
    return f


def miter_add(bits, block, words):
    """Words added up one after another, bit by bit, against a tree of carry-select adders: do they ever differ?"""
    f = Circuit()
    inputs = [[f.var() for _ in range(bits)] for _ in range(words)]
    chain = inputs[0]
    for word in inputs[1:]:
        chain = f.ripple(chain, word)[:bits]
    waiting = [list(word) for word in reversed(inputs)]
    while len(waiting) > 1:
        waiting.append(f.carry_select(waiting.pop(0), waiting.pop(0), block)[:bits])
    f.clauses.append([f.xor(p, q) for p, q in zip(chain, waiting[0])])
    return f


def mixed(f, r, pipe, inputs):
    """One more layer of random gates behind a pipeline."""
    layer = [f.xor(p, i) for p, i in zip(pipe, inputs)]
    for _ in range(4):
        layer = [
            (f.and_ if r.random() < 0.5 else f.or_)(x, r.choice(layer) * r.choice((1, -1))) for x in layer
        ]
        layer = [f.xor(x, r.choice(layer)) if r.random() < 0.3 else x for x in layer]
    return layer


def gray_step(f, gray, enabled, up):
    """A counter in Gray code, one up or down where it is enabled."""
    bits = len(gray)
    plain = [-f.true] * bits
    run = -f.true
    for k in reversed(range(bits)):
        run = f.xor(run, gray[k])
        plain[k] = run
    carry = f.true
    more = []
    for d in plain:
        more.append(f.xor(d, carry))
        carry = f.and_(d, carry)
    carry = f.true
    less = []
    for d in plain:
        less.append(f.xor(d, carry))
        carry = f.and_(-d, carry)
    after = [f.choose(enabled, f.choose(up, i, d), s) for i, d, s in zip(more, less, plain)]
    return [f.xor(after[k], after[k + 1]) if k + 1 < bits else after[k] for k in range(bits)]


def bmc(bits, steps, inputs, seed):
    """Two counters, a binary one and one in Gray code, with the same inputs: do they differ after some step? Wide random
    gates in front of them only say when to count."""
    r = random.Random(seed)
    f = Circuit()
    count = [-f.true] * bits
    gray = [-f.true] * bits
    bad = []
    pipe = [-f.true] * inputs
    for _ in range(steps):
        words = [f.var() for _ in range(inputs)]
        pipe = mixed(f, r, pipe, words)
        enabled = f.or_(pipe[0], pipe[1])
        up = f.and_(pipe[2], words[0])
        count = f.ripple(count, [enabled] + [f.and_(enabled, -up)] * (bits - 1))[:bits]
        gray = gray_step(f, gray, enabled, up)
        bad.append(-f.true)
        for k in range(bits):
            coded = f.xor(count[k], count[k + 1]) if k + 1 < bits else count[k]
            bad[-1] = f.or_(bad[-1], f.xor(coded, gray[k]))
    f.clauses.append(bad)
    return f


def php_er(holes):
    """Cook's proof by extended resolution that the pigeons don't fit, as DRAT text: its definitions are RAT steps."""
    n = holes * (holes + 1)
    p = [[i * holes + j + 1 for j in range(holes)] for i in range(holes + 1)]
    out = []
    for m in range(holes - 1, 0, -1):  # from m + 1 holes to m
        q = [[0] * m for _ in range(m + 1)]
        for i in range(m + 1):
            for j in range(m):
                n += 1
                q[i][j] = n
                a, b, c = p[i][j], p[i][m], p[m + 1][j]
                out += [[n, -a], [n, -b, -c], [-n, a, b], [-n, a, c]]
        for i in range(m + 1):
            out.append(q[i][:])
        for j in range(m):
            for i in range(m + 1):
                for k in range(i):
                    out.append([-q[i][j], -q[k][j], -p[i][j]])
                    out.append([-q[i][j], -q[k][j]])
        p = q
    out.append([-p[0][0]])
    out.append([])
    sys.stdout.write("".join(" ".join(map(str, c + [0])) + "\n" for c in out))


FAMILIES = [php, tseitin, schur, squares, vdw2, rand3, sparse, miter_mul, miter_add, bmc]

if __name__ == "__main__":
    family, numbers = sys.argv[1], [int(word) for word in sys.argv[2:]]
    if family == "php_er":
        php_er(*numbers)
    else:
        {f.__name__: f for f in FAMILIES}[family](*numbers).write(" ".join(sys.argv[1:]))
