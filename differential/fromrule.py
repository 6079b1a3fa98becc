#!/usr/bin/env python3
"""A printer written after docs/RULE.md, as slow and plain as the text. It answers the calls of a sample (format:
differential/differential/src/sample.rs) by part 4, and by part 2 where the layouts are few, and says where an answer differs.

    fromrule.py FILE ..        cases in the sample's form
    fromrule.py --page FILE .. inputs and outputs of the program `page`
    fromrule.py HEX W N P R    one file with width, newline cost, policy, rule: page, spans, cost, counts, needs at the sizes of `page`
    fromrule.py --rule ../docs/RULE.md [--page-program PATH] [--calls-program PATH]
                               all that the page itself works out, its annex and check numbers (rulepage.py), then the steps of part 7
                               (LivePage), calls and steps for desks (DeskPage), several files in one call (BatchPage). What `page` can be
                               asked of it is asked of the first program too, all calls with their sizes of the second (test_calls)
"""
import re
import sys

sys.setrecursionlimit(20000)
FEW = 3000  # layouts that part 2 is tried on
KINDS = 'Empty Text Break HardLine Seq Group Fill Nest Align Choice Annotate Penalty'.split()
NAMED = dict(Empty=0, Text=1, Break=0, HardLine=0, Seq=2, Group=1, Fill=2, Nest=2, Align=1, Choice=2, Annotate=2, Penalty=2)
SIZES = 'stack memo kept frontier plans visit depth output spans'.split()
COUNTS = 'work fit hits misses generated pruned peak entries plans visits'.split()


class Refused(Exception):
    def __init__(self, number, needed=0):
        self.number, self.needed = number, needed


def refuse_if(fault, number, needed=0):
    if fault:
        raise Refused(number, needed)


# ---- part 1: the prepared file

class Node:
    pass


class Reader:
    def __init__(self, data, at=0):
        self.data, self.at = data, at

    def take(self, n):
        refuse_if(self.at + n > len(self.data), 2)
        self.at += n
        return self.data[self.at - n:self.at]

    def byte(self):
        return self.take(1)[0]

    def number(self):
        return int.from_bytes(self.take(4), 'little')

    def field(self, stands, zero=False):
        if not stands:
            return 0
        value = self.number()
        refuse_if(value == 0 and not zero, 3)
        return value


def bit(m, k):
    return m >> k & 1 == 1


# 1.5: first bytes, how many bytes follow, and between which the next one is
CHARACTERS = [(0x00, 0x7f, 0, 0, 0), (0xc2, 0xdf, 1, 0x80, 0xbf), (0xe0, 0xe0, 2, 0xa0, 0xbf), (0xe1, 0xec, 2, 0x80, 0xbf), (0xed, 0xed, 2, 0x80, 0x9f),
              (0xee, 0xef, 2, 0x80, 0xbf), (0xf0, 0xf0, 3, 0x90, 0xbf), (0xf1, 0xf3, 3, 0x80, 0xbf), (0xf4, 0xf4, 3, 0x80, 0x8f)]


def well_formed(text):
    while text:
        row = [row for row in CHARACTERS if row[0] <= text[0] <= row[1]]
        if not row:
            return False
        more, low, high = row[0][2:]
        after, text = text[1:1 + more], text[1 + more:]
        if len(after) < more or not all(0x80 <= b <= 0xbf for b in after[1:]) or not all(low <= b <= high for b in after[:1]):
            return False
    return True


class File:
    def __init__(self, data, start=0):
        r = Reader(data, start)
        m = r.byte()
        refuse_if(bit(m, 7), 3)
        counts = []
        for k, (low, high) in enumerate([(1, 4096), (0, 16384), (1, 4096), (0, 4096), (0, 16384)]):
            counts.append(r.field(bit(m, k)))
            refuse_if(not low <= counts[-1] <= high, 4)
        self.root = r.field(bit(m, 5))
        self.space = r.field(bit(m, 6))
        nodes, edges, texts, self.annotations, choices = counts
        self.nodes = [self.node(r) for _ in range(nodes)]
        self.edges = [r.number() for _ in range(edges)]
        self.choices = [r.number() for _ in range(choices)]
        self.texts, total = [], 0
        for _ in range(texts):
            m = r.byte()
            refuse_if(m > 3, 3)
            width = r.field(bit(m, 0))
            length = r.field(bit(m, 1))
            total += length
            refuse_if(total > 65536, 4)
            self.texts.append((width, r.take(length)))
        refuse_if(r.at != len(data), 5)
        self.whole()

    @staticmethod
    def node(r):
        n = Node()
        m = r.byte()
        refuse_if(m >= 64 or (bit(m, 3) or bit(m, 5)) and not bit(m, 4), 3)
        kind = r.byte()
        refuse_if(kind > 11, 3)
        n.kind = KINDS[kind]
        refuse_if(bit(m, 0) and NAMED[n.kind] < 1 or bit(m, 1) and NAMED[n.kind] < 2 or bit(m, 4) and kind != 9, 3)
        n.first = r.field(bit(m, 0))
        n.second = r.field(bit(m, 1))
        flat = r.field(bit(m, 2), zero=True)
        n.flat = flat if bit(m, 2) else None
        n.start = r.field(bit(m, 3))
        n.length = r.field(bit(m, 4))
        n.skipped = r.field(bit(m, 5))
        return n

    def nodes_below(self, n):
        """The children."""
        if n.kind in ('Seq', 'Fill'):
            return self.edges[n.first:n.first + n.second]
        return {'Group': [n.first], 'Align': [n.first], 'Nest': [n.second], 'Annotate': [n.second], 'Penalty': [n.second],
                'Choice': [n.first, n.second]}.get(n.kind, [])

    def leads(self, n):
        below = list(self.nodes_below(n))
        if n.kind == 'Group' and self.nodes[n.first].flat is not None:
            below.append(self.nodes[n.first].flat)
        return below

    def whole(self):
        there = len(self.nodes)
        named = [self.root < there, self.space < len(self.texts)]
        named += [e < there for e in self.edges + self.choices]
        for n in self.nodes:
            if n.kind == 'Text':
                named.append(n.first < len(self.texts))
            if n.kind == 'Annotate':
                named.append(n.first < self.annotations)
            if n.kind in ('Seq', 'Fill'):
                named.append(n.first <= len(self.edges) and n.first + n.second <= len(self.edges))
            else:
                named += [k < there for k in self.nodes_below(n)]
            named.append(n.flat is None or n.flat < there)
            named.append(n.length == 0 or n.start + n.length <= len(self.choices))
        refuse_if(not all(named), 6)
        refuse_if(any(10 in t or not well_formed(t) for _, t in self.texts), 7)
        refuse_if(self.texts[self.space] != (1, b' '), 8)
        state = [0] * there
        for n in range(there):
            self.circle(n, state)
        refuse_if(not all(self.right(n) for n in self.nodes if n.length), 10)

    def circle(self, root, state):
        stack = [(root, iter(self.leads(self.nodes[root])))] if not state[root] else []
        if stack:
            state[root] = 1
        while stack:
            at, below = stack[-1]
            k = next(below, None)
            if k is None:
                state[at] = 2
                stack.pop()
            else:
                refuse_if(state[k] == 1, 9)
                if not state[k]:
                    state[k] = 1
                    stack.append((k, iter(self.leads(self.nodes[k]))))

    def right(self, n):
        """Whether the choice list comes of (preferred, alternative) by so many replacements: the first entry is the next of
        the list as it stands, or a Choice that was replaced. As no node leads back to itself there is one way to find out."""
        stack, skipped = [n.second, n.first], 0
        for entry in self.choices[n.start:n.start + n.length]:
            while stack and stack[-1] != entry:
                k = self.nodes[stack.pop()]
                if k.kind != 'Choice' or skipped == n.skipped:
                    return False
                skipped += 1
                stack += [k.second, k.first]
            if not stack:
                return False
            stack.pop()
        return not stack and skipped == n.skipped


# ---- part 2: the page, from all layouts. A layout is what it puts: ('text', width, bytes), ('line', indent), ('open', annotation),
# ('close',), ('fee', amount)

class Many(Exception):
    pass


class Rule:
    def __init__(self, file, w, newline, policy, rule):
        self.file, self.w, self.newline, self.policy, self.rule = file, w, newline, policy, rule
        self.made = 0

    def charge(self, c):
        over = max(c - self.w, 0)
        return over if self.rule == 2 else over ** 2

    def lowered(self, i):
        return min(i, self.w - 1) if self.policy else i

    def layouts(self, node, c, i):
        """The layouts of a node from column c and indent i on, in choice order: what each puts, and the column after it."""
        n, f = self.file.nodes[node], self.file
        if n.kind in ('Break', 'HardLine'):
            out = [([('line', i)], i)]
        elif n.kind == 'Text':
            out = [([('text',) + f.texts[n.first]], c + f.texts[n.first][0])]
        elif n.kind in ('Empty', 'Seq', 'Fill'):
            out = [([], c)]
            for k, child in enumerate(f.nodes_below(n)):
                if k and n.kind == 'Fill':
                    out = [x for p, d in out for x in ((p + [('text',) + f.texts[f.space]], d + 1), (p + [('line', i)], i))]
                out = [(p + q, e) for p, d in out for q, e in self.layouts(child, d, i)]
                if len(out) > FEW:
                    raise Many
        elif n.kind == 'Group':
            flat = f.nodes[n.first].flat
            out = ([] if flat is None else self.layouts(flat, c, i)) + self.layouts(n.first, c, i)
        elif n.kind == 'Nest':
            out = self.layouts(n.second, c, self.lowered(i + n.first))
        elif n.kind == 'Align':
            out = self.layouts(n.first, c, self.lowered(c))
        elif n.kind == 'Choice':
            out = self.layouts(n.first, c, i) + self.layouts(n.second, c, i)
        elif n.kind == 'Annotate':
            out = [([('open', n.first)] + p + [('close',)], d) for p, d in self.layouts(n.second, c, i)]
        else:
            out = [([('fee', n.first)] + p, d) for p, d in self.layouts(n.second, c, i)]
        self.made += sum(len(p) + 1 for p, _ in out)
        if len(out) > FEW or self.made > 300000:
            raise Many
        return out

    def worth(self, layout):
        lines, burden = [0], 0
        for p in layout:
            if p[0] == 'text':
                lines[-1] += p[1]
            elif p[0] == 'line':
                lines.append(p[1])
                burden += self.newline
            elif p[0] == 'fee':
                burden += p[1]
        return sum(self.charge(c) for c in lines), burden

    def page(self):
        best = min((p for p, _ in self.layouts(self.file.root, 0, 0)), key=self.worth)  # the first of the least
        page, spans, open_ = b'', [], []
        for p in best:
            if p[0] == 'text':
                page += p[2]
            elif p[0] == 'line':
                if p[1] > 1000000:
                    raise Many
                page += b'\n' + b' ' * p[1]
            elif p[0] == 'open':
                spans.append([p[1], len(page), None, open_[-1] if open_ else None])
                open_.append(len(spans) - 1)
            elif p[0] == 'close':
                spans[open_.pop()][2] = len(page)
        return page, spans, self.worth(best)


# ---- part 4: the machine

class Machine(Rule):
    def __init__(self, file, w, newline, policy, rule, sizes, work_limit, visit_limit):
        super().__init__(file, w, newline, policy, rule)
        self.sizes, self.work_limit, self.visit_limit = dict(zip(SIZES, sizes)), work_limit, visit_limit
        self.count = dict.fromkeys(COUNTS, 0)
        self.needs = dict.fromkeys(SIZES, 0)
        self.tasks, self.results, self.pending, self.memo, self.kept, self.plans, self.frontier = [], [], [], {}, [], [], []
        self.steps = []  # (task, its values, work before and after it), for the tables of 4.6

    def need(self, kind, n):
        refuse_if(n > self.sizes[kind], 13 + SIZES.index(kind), n)
        self.needs[kind] = max(self.needs[kind], n)

    def test_work(self, other):
        refuse_if(self.count['work'] >= self.work_limit, 12)
        self.count['work'] += 1
        self.count[other] += 1

    def push(self, stack, x):
        self.need('stack', len(stack) + 1)
        stack.append(x)

    # 4.2: a candidate is (cost, column, plan, new)
    def present(self, cost, column, plan, new):
        precedence = self.count['generated']
        self.test_work('generated')
        f = self.frontier
        same = [x for x in f if x[1] == column]
        lower = [x for x in f if x[1] < column]
        if same and same[0][0] <= cost or lower and max(lower, key=lambda x: x[1])[0] < cost:
            self.count['pruned'] += 1
            return
        left = [x for x in f if not (x[1] == column or x[1] > column and x[0] > cost)]
        self.count['pruned'] += len(f) - len(left)
        self.need('frontier', len(left) + 1)
        self.frontier = left + [(cost, column, precedence, plan, new)]

    def finish(self):
        f = self.frontier
        self.need('plans', len(self.plans) + sum(x[4] for x in f))
        self.need('kept', len(self.kept) + len(f))
        start = len(self.kept)
        for cost, column, precedence, plan, new in f:
            if new:
                self.plans.append(plan)
            self.kept.append((cost, column, precedence, len(self.plans) - 1 if new else plan))
        self.count['peak'] = max(self.count['peak'], len(f))
        self.frontier = []
        return range(start, len(self.kept))

    def complete(self, key, found):
        self.need('memo', len(self.memo) + 1)
        self.memo[key] = found
        self.count['entries'] = len(self.memo)
        self.push(self.results, found)

    def sum(self, a, b):
        refuse_if(a[0] + b[0] >= 2 ** 128 or a[1] + b[1] >= 2 ** 64, 26)
        return a[0] + b[0], a[1] + b[1]

    def text(self, c, w):
        refuse_if(c + w >= 2 ** 32, 11)
        return self.charge(c + w) - self.charge(c), 0

    def line(self, i):
        self.present((self.charge(i), self.newline), i, ('line', i), True)

    # 4.3
    def solve(self):
        self.push(self.tasks, (self.evaluate, (self.file.root, 0, 0)))
        while self.tasks:
            task, *rest = self.tasks.pop()
            before = self.count['work']
            task(*rest)
            self.steps.append((task.__name__, rest, before, self.count['work']))
        self.count['plans'] = len(self.plans)
        best = min((self.kept[x] for x in self.results.pop()), key=lambda x: (x[0], x[2]))
        return best[0], best[3]

    def then(self, task, *keys):
        self.push(self.tasks, task)
        for key in keys:
            self.push(self.tasks, (self.evaluate, key))

    def evaluate(self, key):
        node, c, i = key
        n, f = self.file.nodes[node], self.file
        if key in self.memo:
            self.test_work('hits')
            return self.push(self.results, self.memo[key])
        self.test_work('misses')
        below = f.nodes_below(n)
        if n.kind == 'Empty' or n.kind in ('Seq', 'Fill') and not below:
            self.present((0, 0), c, ('nothing',), True)
            self.complete(key, self.finish())
        elif n.kind == 'Text':
            cost = self.text(c, f.texts[n.first][0])
            self.present(cost, c + f.texts[n.first][0], ('text', n.first), True)
            self.complete(key, self.finish())
        elif n.kind in ('Break', 'HardLine'):
            self.line(i)
            self.complete(key, self.finish())
        elif n.kind in ('Seq', 'Fill'):
            self.then((self.go_on, key, 1), (below[0], c, i))
        elif n.kind == 'Group':
            flat = f.nodes[n.first].flat
            if flat is None:
                self.then((self.pass_on, key), (n.first, c, i))
            else:
                self.then((self.unite, key), (n.first, c, i), (flat, c, i))
        elif n.kind == 'Nest':
            refuse_if(i + n.first >= 2 ** 32, 25)
            self.then((self.pass_on, key), (n.second, c, self.lowered(i + n.first)))
        elif n.kind == 'Align':
            self.then((self.pass_on, key), (n.first, c, self.lowered(c)))
        elif n.kind == 'Choice' and n.length:
            for _ in range(n.skipped):
                self.test_work('misses')
            list_ = f.choices[n.start:n.start + n.length]
            self.then((self.unite_all, key, len(self.results)), *[(k, c, i) for k in reversed(list_)])
        elif n.kind == 'Choice':
            self.then((self.unite, key), (n.second, c, i), (n.first, c, i))
        elif n.kind == 'Annotate':
            self.then((self.wrap, key, 'mark', n.first), (n.second, c, i))
        else:
            self.then((self.wrap, key, 'charge', n.first), (n.second, c, i))

    def pass_on(self, key):
        self.complete(key, self.results.pop())

    def unite(self, key):
        self.unite_all(key, len(self.results) - 2)

    def unite_all(self, key, n):
        for found in self.results[n:]:
            for x in found:
                cost, column, _, plan = self.kept[x]
                self.present(cost, column, plan, False)
        found = self.finish()
        del self.results[n:]
        self.complete(key, found)

    def wrap(self, key, how, number):
        for x in self.results.pop():
            cost, column, _, plan = self.kept[x]
            cost = self.sum(cost, (0, number if how == 'charge' else 0))
            self.present(cost, column, (how, number, plan), True)
        self.complete(key, self.finish())

    def join(self, left, found):
        for x in found:
            right = self.kept[x]
            cost = self.sum(left[0], right[0])
            self.push(self.pending, (cost, right[1], ('join', left[3], right[3]), True))

    def present_pending(self, p):
        for x in self.pending[p:]:
            self.present(*x)
        del self.pending[p:]
        return self.finish()

    def gap(self, left, i):
        p = len(self.pending)
        for x in left:
            c = self.kept[x][1]
            cost = self.text(c, 1)
            self.present(cost, c + 1, ('text', self.file.space), True)
            self.line(i)
            self.join(self.kept[x], self.finish())
        return self.present_pending(p)

    def go_on(self, key, k):
        node, c, i = key
        n = self.file.nodes[node]
        left = self.results.pop()
        if k >= len(self.file.nodes_below(n)):
            return self.complete(key, left)
        if n.kind == 'Fill':
            left = self.gap(left, i)
        self.rights(key, k, left, 0, len(self.pending))

    def rights(self, key, k, left, o, p):
        child = self.file.nodes_below(self.file.nodes[key[0]])[k]
        self.then((self.right, key, k, left, o, p), (child, self.kept[left[o]][1], key[2]))

    def right(self, key, k, left, o, p):
        self.join(self.kept[left[o]], self.results.pop())
        if o + 1 < len(left):
            return self.rights(key, k, left, o + 1, p)
        found = self.present_pending(p)
        self.push(self.tasks, (self.go_on, key, k + 1))
        self.push(self.results, found)

    # 4.5
    def materialize(self, root):
        page, spans, open_, visit = bytearray(), [], [], []

        def push(x):
            self.need('visit', len(visit) + 1)
            visit.append(x)

        push(root)
        while visit:
            refuse_if(self.count['visits'] >= self.visit_limit, 22)
            self.count['visits'] += 1
            x = visit.pop()
            plan = ('close',) if x == 'close' else self.plans[x]
            if plan[0] == 'text':
                t = self.file.texts[plan[1]][1]
                self.need('output', len(page) + len(t))
                page += t
            elif plan[0] == 'line':
                # one by one: the first that has no room refuses
                self.need('output', min(len(page) + plan[1], self.sizes['output']) + 1)
                page += b'\n' + b' ' * plan[1]
            elif plan[0] == 'join':
                push(plan[2])
                push(plan[1])
            elif plan[0] == 'mark':
                self.need('spans', len(spans) + 1)
                self.need('depth', len(open_) + 1)
                spans.append([plan[1], len(page), None, open_[-1] if open_ else None])
                open_.append(len(spans) - 1)
                push('close')
                push(plan[2])
            elif plan[0] == 'charge':
                push(plan[2])
            elif plan[0] == 'close':
                spans[open_.pop()][2] = len(page)
        return bytes(page), spans

    def render(self):
        cost, root = self.solve()
        return self.materialize(root) + (cost,)


def test_setting(w, newline, policy, rule):
    refuse_if(w == 0 or policy > 1 or rule not in (1, 2), 1)


def answer(data, settings, sizes, limits, start=0):
    """(page, spans, cost) or (number, needed); the counts; the needs, None with a refusal."""
    w, newline, policy, rule = settings
    counts = dict.fromkeys(COUNTS, 0)
    try:
        test_setting(*settings)
        file = File(data, start)
        m = Machine(file, w, newline, policy, rule, sizes, *limits)
        counts = m.count
        said = m.render()
        try:
            ruled = Rule(file, w, newline, policy, rule).page()
            assert ruled == said, ('part 2 differs from part 4', ruled, said)
            answer.by_rule += 1
        except Many:
            pass
        return said, counts, m.needs
    except Refused as r:
        return (r.number, r.needed), counts, None


answer.by_rule = 0
PAGE = [512, 1024, 1024, 256, 2048, 512, 64, 32768, 512], [1000000, 1000000]


def program(data):
    try:
        refuse_if(len(data) > 32768, 4)
        r = Reader(data)
        m = r.byte()
        refuse_if(m > 15, 3)
        w = r.field(bit(m, 0))
        newline = r.field(bit(m, 1))
        said, counts, _ = answer(data, (w, newline, int(bit(m, 2)), 2 if bit(m, 3) else 1), *PAGE, start=r.at)
    except Refused as r:
        said = r.number, 0
    if len(said) == 2:
        return b'refused %d\n' % said[0]
    page, spans, cost = said
    return b'page %d %032x %d %d\n' % (counts['work'], cost[0], cost[1], len(spans)) + page + b'\n'


# ---- part 7: live reports

ROWS = 1024
ENOUGH = [2 ** 64] * 7 + [2 ** 20] * 2, [2 ** 64, 10 ** 7]


class Report:
    """The setting, and of each row its file and its own page, spans and cost. A step gives its answer, as of `answer`, and the report
    after it; none alters the report that it is taken on."""

    def __init__(self, setting, rows=()):
        test_setting(*setting)
        self.setting, self.rows = setting, list(rows)

    def whole(self):
        """7.2: the rows' pages one below the other."""
        pages, marks, at = [], [], 0
        for _, (page, spans, _) in self.rows:
            before = len(marks)
            marks += [[a, s + at, e + at, None if up is None else up + before] for a, s, e, up in spans]
            pages.append(page)
            at += len(page) + 1
        costs = [cost for _, (_, _, cost) in self.rows]
        newlines = max(len(self.rows) - 1, 0)
        return b'\n'.join(pages), marks, (sum(c[0] for c in costs), sum(c[1] for c in costs) + newlines * self.setting[1])

    def insert(self, place, data, sizes, limits):
        said, counts, needs = (), dict.fromkeys(COUNTS, 0), None
        if place > len(self.rows):
            said = 23, 0
        elif len(self.rows) == ROWS:
            said = 24, 0
        else:
            said, counts, needs = answer(data, self.setting, sizes, limits)
        if len(said) == 2:
            return (said, counts, None), self
        return self.tested(self.rows[:place] + [(data, said)] + self.rows[place:], counts, needs, sizes)

    def remove(self, place, sizes):
        counts = dict.fromkeys(COUNTS, 0)
        if place >= len(self.rows):
            return ((23, 0), counts, None), self
        return self.tested(self.rows[:place] + self.rows[place + 1:], counts, dict.fromkeys(SIZES, 0), sizes)

    def tested(self, rows, counts, needs, sizes):
        after, lent = Report(self.setting, rows), dict(zip(SIZES, sizes))
        page, spans, cost = after.whole()
        try:
            refuse_if(cost[0] >= 2 ** 128 or cost[1] >= 2 ** 64, 26)
            refuse_if(len(page) > lent['output'], 20, len(page))
            refuse_if(len(spans) > lent['spans'], 21, len(spans))
        except Refused as r:
            return ((r.number, r.needed), counts, None), self
        return ((page, spans, cost), counts, dict(needs, output=len(page), spans=len(spans))), after


def taken(report, step, sizes, limits):
    """A step is a place, and the file to insert there or None."""
    place, data = step
    return report.remove(place, sizes) if data is None else report.insert(place, data, sizes, limits)


# ---- work counted by desk

class Desks:
    """How much work each of the desks 0 to 7 may do, and how much it has done. They are kept from call to call."""

    def __init__(self, allowance, spent):
        self.allowance, self.spent = list(allowance), list(spent)

    def served(self, desk, setting, limits, call):
        """1, then 28, then the call with no more work than its limit and what the desk may still do; its work is added to what it has done."""
        try:
            test_setting(*setting)
            refuse_if(desk > 7, 28)
        except Refused as r:
            return ((r.number, r.needed), dict.fromkeys(COUNTS, 0), None), None
        (said, counts, needs), after = call([min(limits[0], max(self.allowance[desk] - self.spent[desk], 0)), limits[1]])
        self.spent[desk] += counts['work']
        return (said, counts, needs), after

    def call(self, desk, data, setting, sizes, limits):
        return self.served(desk, setting, limits, lambda limits: (answer(data, setting, sizes, limits), None))[0]

    def step(self, desk, report, step, sizes, limits):
        given, after = self.served(desk, report.setting, limits, lambda limits: taken(report, step, sizes, limits))
        return given, after or report


# ---- several files in one call

DOCUMENTS = 64


class Record(Desks):
    """The desks, and the counts of the last call."""

    def __init__(self, allowance, spent, counts):
        super().__init__(allowance, spent)
        self.counts = dict(counts)

    def file_all(self, desk, files, setting, sizes, limits, lent=True):
        """1, then 28, then 29; then each file by a call with the output and spans that are free. The batch's own number, 0 where the files are
        tried; each file's answer; the pages and the spans, one behind the other. `lent`: what is lent is no reason for 1."""
        answers, output, spans = [], b'', []
        try:
            test_setting(*setting)
            refuse_if(not lent, 1)
            refuse_if(desk > 7, 28)
            refuse_if(len(files) > DOCUMENTS, 29)
        except Refused as r:
            self.counts = dict.fromkeys(COUNTS, 0) if files else self.counts
            return r.number, answers, output, spans
        for data in files:
            said, self.counts, needs = self.call(desk, data, setting, less(sizes, output, spans), limits)
            answers.append((said, self.counts, needs))
            if len(said) == 3:
                output, spans = output + said[0], spans + said[1]
        return 0, answers, output, spans


def less(sizes, output, spans):
    return sizes[:7] + [sizes[7] - len(output), sizes[8] - len(spans)]


class OneDocument(File):
    """The tables of a Seq of the rows with a HardLine between neighbours, as if it were a file. What a row's numbers name stands further
    back by what the rows before it have; its annotations stay."""

    def __init__(self, files):
        self.nodes, self.edges, self.choices, self.texts, self.space, roots = [], [], [], [], 0, []
        for file in files:
            roots.append(file.root + len(self.nodes))
            self.space = file.space + len(self.texts)
            moved = [self.moved(n) for n in file.nodes]
            self.edges += [k + len(self.nodes) for k in file.edges]
            self.choices += [k + len(self.nodes) for k in file.choices]
            self.nodes += moved
            self.texts += file.texts
        self.root = len(self.nodes)
        children = [k for root in roots for k in (self.root + 1, root)][1:]
        self.nodes += [self.made('Seq', len(self.edges), len(children)), self.made('HardLine', 0, 0)]
        self.edges += children

    @staticmethod
    def made(kind, first, second, flat=None, start=0, length=0, skipped=0):
        n = Node()
        n.kind, n.first, n.second, n.flat, n.start, n.length, n.skipped = kind, first, second, flat, start, length, skipped
        return n

    def moved(self, n):
        before = {'node': len(self.nodes), 'edge': len(self.edges), 'text': len(self.texts)}
        first, second = {'Text': ('text', ''), 'Seq': ('edge', ''), 'Fill': ('edge', ''), 'Group': ('node', ''), 'Align': ('node', ''),
                         'Choice': ('node', 'node'), 'Nest': ('', 'node'), 'Annotate': ('', 'node'), 'Penalty': ('', 'node')}.get(n.kind, ('', ''))
        return self.made(n.kind, n.first + before.get(first, 0), n.second + before.get(second, 0),
                         None if n.flat is None else n.flat + before['node'], n.start + len(self.choices), n.length, n.skipped)


def shown(said, counts, needs):
    if len(said) == 2:
        lines = ['refused %d %d' % said]
    else:
        page, spans, cost = said
        lines = ['page ' + (page.hex() or '-'), 'cost %032x %d' % cost]
        lines += ['span %d %d %d %s' % (a, s, e, '-' if up is None else up) for a, s, e, up in spans]
    lines.append('counts ' + ' '.join(str(counts[k]) for k in COUNTS))
    return lines + ([] if needs is None else ['needs ' + ' '.join(str(needs[k]) for k in SIZES)])


def unhex(text):
    if text.startswith('REPEAT'):
        _, n, byte = text.split()
        return bytes.fromhex(byte) * int(n)
    return b'' if text == '-' else bytes.fromhex(text)


class LivePage:
    """The tables of part 7, read off the page as rulepage.py reads the others, and worked out again.

    A table that begins with `row`, `file` names files by letters. One that begins with `rows`, `step`, `but` has in `rows` the report
    before the step, by letters and sections with a comma between them (`1,024 times E`: so many), in `step` the step, `insert E at 0` or
    `remove 0`, and then the columns of pages, counts or needs; one of refusals has `no.` before these three. What is usual is as in
    rulepage.py. A page is worked out a second time as that of the one document, by the machine and, where the layouts are few, by part 2. A
    table that begins with `no.`, `one document`, `but` has those that the machine refuses, though the report gets its page."""

    def __init__(self, name):
        import rulepage  # which imports this file
        self.tool, self.page = rulepage, rulepage.Page(name, None)
        self.letters, self.rows, self.without, self.agree = {}, {}, {}, self.page.agree

    def file(self, cell):
        return self.letters[cell] if cell in self.letters else self.page.made_of(cell)

    def files(self, cell):
        out = []
        for part in [] if cell == 'none' else cell.split(', '):
            many = re.fullmatch(r'([\d,]+) times (.+)', part)
            out += [self.file(many[2])] * self.tool.number(many[1]) if many else [self.file(part)]
        return out

    def given(self, but):
        return self.tool.changed(but.replace('all sizes 0', ', '.join(name + ' 0' for name in SIZES)))

    def row(self, data, setting):
        """A file as a row: that it is solved with sizes and limits enough does not matter."""
        key = data, tuple(setting)
        if key not in self.rows:
            self.rows[key] = data, answer(data, setting, *ENOUGH)[0]
        return self.rows[key]

    def read(self, cell):
        """The report before the step; place and file, None for a removal; the files after it; sizes and limits."""
        setting, sizes, limits = self.given(cell['but'])
        files = self.files(cell['rows'])
        kind, data, place = re.fullmatch(r'(insert (.+) at|remove) ([\d,]+)', cell['step']).groups()
        place, new = self.tool.number(place), [] if kind == 'remove' else [self.file(data)]
        after = files[:place] + new + files[place + (kind == 'remove'):]
        return Report(setting, [self.row(data, setting) for data in files]), (place, new[0] if new else None), after, sizes, limits

    def made(self, files, setting):
        """The report of these files by insertions, the last row first, each with just its needs as sizes."""
        report = Report(setting)
        for data in reversed(files):
            (_, _, needs), _ = report.insert(0, data, *ENOUGH)
            _, report = report.insert(0, data, list(needs.values()), ENOUGH[1])
        return report

    def document(self, where, files, setting, said):
        """The one document gets the same page; or it is refused as the page says or, where the step is refused by 11, 25 or 26, by that."""
        one = OneDocument([File(data) for data in files])
        try:
            worked = Machine(one, *setting, ENOUGH[0], *ENOUGH[1]).render()
        except Refused as r:
            worked = r.number
        self.agree('one documents', where, self.without.get((tuple(files), tuple(setting)), said), worked)
        try:
            if worked == said and said not in (11, 25, 26):
                self.agree('of these by part 2 too', where, said, Rule(one, *setting).page())
        except Many:
            pass

    def results(self, where, cell):
        report, step, files, sizes, limits = self.read(cell)
        (said, counts, needs), after = taken(report, step, sizes, limits)
        if 'work' in cell:
            self.agree('counts', where, [self.tool.number(cell[name]) for name in self.tool.SHOWN], [counts[name] for name in self.tool.SHOWN])
        if 'page' in cell:
            cost = self.tool.number(cell['overflow']), self.tool.number(cell['burden'])
            page = b'' if cell['page'] == 'no bytes' else self.page.made_of(cell['page'])
            self.agree('pages', where, (page, self.tool.spans_in(cell['spans']), cost), said)
            self.document(where, files, report.setting, said)
            self.agree('reports made otherwise', where, said, self.made(files, report.setting).whole())
            if needs:
                place, data = step
                (again, _, _), before = taken(after, (place, report.rows[place][0] if data is None else None), *ENOUGH)
                self.agree('steps taken back', where, (report.whole(), report.rows), (again, before.rows))
        if 'stack' in cell:
            self.agree('needs', where, [self.tool.number(cell[name]) for name in SIZES], needs and list(needs.values()))
            if needs:
                self.suffice(where, report, step, limits, (said, counts, needs))

    def suffice(self, where, report, step, limits, said):
        """A step's needs: lent just these, the same comes; with one of them one less, or 0, that kind's refusal."""
        needs = list(said[2].values())
        self.agree('steps at the needs', where, said, taken(report, step, needs, limits)[0])
        for kind, need in enumerate(needs):
            for size in sorted({need - 1, 0} if need else set()):
                (refused, _, _), after = taken(report, step, needs[:kind] + [size] + needs[kind + 1:], limits)
                own = len(refused) == 2 and refused[0] == 13 + kind and size < refused[1] <= need and after is report
                self.agree('steps with one size smaller', '%s, %s %d' % (where, SIZES[kind], size), own, True)

    def refusals(self, where, cell):
        report, step, files, sizes, limits = self.read(cell)
        (said, counts, _), after = taken(report, step, sizes, limits)
        told = [self.tool.number(cell[name]) for name in ['no.', 'needed'] + self.tool.SHOWN]
        self.agree('refusals', where, told, list(said[:2]) + [counts[name] for name in self.tool.SHOWN])
        self.agree('reports as they were', where, after is report, True)
        if said[0] in (11, 25, 26):
            self.document(where, files, report.setting, said[0])
        elif said[0] in (20, 21):
            self.document(where, files, report.setting, taken(report, step, *ENOUGH)[0][0])

    def cells(self, *head):
        """The rows of the tables that begin so, with where they stand."""
        for section, _, names, rows in self.page.tables:
            for row in rows if names[:len(head)] == list(head) else []:
                yield '%s: %s' % (section, row), dict(zip(names, row))

    def name_rows(self):
        for _, cell in self.cells('row', 'file'):
            self.letters[cell['row']] = self.page.made_of(cell['file'])

    def whole(self):
        self.name_rows()
        for _, cell in self.cells('no.', 'one document', 'but'):
            setting, _, _ = self.given(cell['but'])
            self.without[tuple(self.files(cell['one document'])), tuple(setting)] = self.tool.number(cell['no.'])
        for where, cell in self.cells('rows', 'step', 'but'):
            self.results(where, cell)
        for where, cell in self.cells('no.', 'rows', 'step', 'but'):
            self.refusals(where, cell)
        return self.told('live reports')

    def told(self, what):
        for line in self.page.different:
            print(line)
        said = [what] + ['%d %s' % (number, what) for what, number in self.page.done.items()]
        print('; '.join(said) + ': %d different' % len(self.page.different))
        return 1 if self.page.different else 0


class DeskPage(LivePage):
    """Calls and steps for desks.

    A table that begins with `desk`, `allowance`, `spent`, `rows`, `call`, `but` has a call in each row: `page of A`, with `rows` empty, or a step
    as in part 7. Then come `no.` (`page` where there is one), `needed`, `work` and `spent after`. Where allowance and spent are empty, the desk's
    are as the rows above left them, and where `rows` is empty, the report is as the last step left it. For a desk above 7 all these are empty."""

    HEAD = ['desk', 'allowance', 'spent', 'rows', 'call', 'but', 'no.', 'needed', 'work', 'spent after']

    def number(self, cell):
        from_the_end = re.fullmatch(r'2\^64 − ([\d,]+)', cell)
        return 2 ** 64 - self.tool.number(from_the_end[1]) if from_the_end else self.tool.number(cell)

    def begin(self):
        """Words that a call for another desk may neither read nor alter."""
        self.desks = Desks([5, 0, 2 ** 64 - 1, 7] * 2, [0, 9, 2 ** 64 - 1, 2 ** 64 - 2] * 2)

    def account(self, cell):
        """The desk of a row, and the words of the desks before the call."""
        desk = self.number(cell['desk'])
        if cell['allowance']:
            self.desks.allowance[desk], self.desks.spent[desk] = self.number(cell['allowance']), self.number(cell['spent'])
        return desk, self.desks.allowance + self.desks.spent

    def charged(self, where, cell, desk, words, work):
        """The words of the desks after a call of so much work."""
        if desk < 8:
            words[8 + desk] += work
            self.agree('spent counts', where, self.number(cell['spent after']), self.desks.spent[desk])
        self.agree('desks', where, words, self.desks.allowance + self.desks.spent)

    def called(self, where, cell):
        """The answer of a row, held to what the row says."""
        desk, words = self.account(cell)
        setting, sizes, limits = self.given(cell['but'])
        if cell['call'].startswith('page of '):
            said, counts, _ = self.desks.call(desk, self.file(cell['call'][8:]), setting, sizes, limits)
        else:
            if cell['rows']:
                self.report = self.read({'rows': cell['rows'], 'step': cell['call'], 'but': cell['but']})[0]
            step = self.read({'rows': 'none', 'step': cell['call'], 'but': cell['but']})[1]
            (said, counts, _), self.report = self.desks.step(desk, self.report, step, sizes, limits)
        self.charged(where, cell, desk, words, counts['work'])
        told = [0 if cell['no.'] == 'page' else self.number(cell['no.']), self.number(cell['needed']), self.number(cell['work'])]
        worked = list(said) if len(said) == 2 else [0, 0]
        self.agree('calls', where, told, worked + [counts['work']])

    def alone(self):
        """Three desks in turn, each with a report of its own and one with none: each gets the same alone, whatever the others' words are."""
        files = [self.file(name) for name in ('A', 'M', 'F', 'N', 'nothing')]
        turns = [(n % 3, n // 3 % 4, files[n * 7 % 5]) for n in range(60)]

        def run(turns, words):
            desks, reports, said = Desks(words[:8], words[8:]), [Report([2, 1, 0, 1]) for _ in range(3)], []
            for n, (desk, kind, data) in enumerate(turns):
                if kind == 0:
                    given = desks.call(desk, data, [3, 1, 0, 1], *PAGE)
                else:
                    step = (0, None) if kind == 3 else (0, data)
                    given, reports[desk] = desks.step(desk, reports[desk], step, *PAGE)
                said.append((desk, given, desks.allowance[desk], desks.spent[desk]))
            return said

        together = run(turns, [40, 100, 10 ** 6, 0, 0, 0, 0, 0] + [0, 30, 0, 9, 9, 9, 9, 9])
        for desk, (allowance, spent) in enumerate([(40, 0), (100, 30), (10 ** 6, 0)]):
            words = [n * 3 for n in range(16)]
            words[desk], words[8 + desk] = allowance, spent
            self.agree('desks alone', str(desk), run([turn for turn in turns if turn[0] == desk], words), [one for one in together if one[0] == desk])

    def whole(self):
        self.name_rows()
        self.begin()
        for where, cell in self.cells(*self.HEAD[:6]):
            self.called(where, cell)
        self.alone()
        return self.told('desks')


class BatchPage(DeskPage):
    """Several files in one call.

    A table that begins with `desk`, `allowance`, `spent`, `files`, `but`, `batch` has a batch in each row; desk, allowance and spent are as in
    tables of desks. `files` has the files in order, as rows of a report in part 7; `nothing` is a file without bytes, `none` no file. In `but` may
    stand besides `answers 63` (room for so many answers; usually for each file, or for 64 where there are more), `bytes 69` (so many bytes for
    all files, whose lengths stay) and `memory for output 100`. Then comes the batch's own number, 0 where the files are tried, and of each file,
    with commas between them (`64 times page`: so many), `no.` (`page` where there is one), `needed` and `work`; `output` and `spans` of all pages;
    in `work kept` the work of the counts that are then in the record, or `as before` where these are unaltered; and `spent after`."""

    HEAD = ['desk', 'allowance', 'spent', 'files', 'but', 'batch', 'no.', 'needed', 'work', 'output', 'spans', 'work kept', 'spent after']

    COUNTED = {name: 90 + at for at, name in enumerate(COUNTS)}  # such as no file here has, so that what alters them shows

    def begin(self):
        super().begin()
        self.desks = Record(self.desks.allowance, self.desks.spent, self.COUNTED)

    def listed(self, cell):
        """Numbers with commas between them; a page is 0."""
        out = []
        for part in filter(None, cell.split(', ')):
            many, one = re.fullmatch(r'(?:([\d,]+) times )?(.+)', part).groups()
            out += [0 if one == 'page' else self.number(one)] * (self.number(many) if many else 1)
        return out

    def asked(self, cell):
        """The files; setting, sizes and limits; whether what is lent suffices."""
        files, own, usual = self.files(cell['files']), {}, []
        for part in filter(None, cell['but'].split(', ')):
            named = re.fullmatch(r'(answers|bytes|memory for output) ([\d,]+)', part)
            if named:
                own[named[1]] = self.number(named[2])
            else:
                usual.append(part)
        setting, sizes, limits = self.given(', '.join(usual))
        needed = {'answers': min(len(files), DOCUMENTS), 'bytes': sum(len(data) for data in files), 'memory for output': sizes[7]}
        return files, setting, sizes, limits, all(own.get(name, least) >= least for name, least in needed.items())

    def batch(self, where, cell):
        desk, words = self.account(cell)
        files, setting, sizes, limits, lent = self.asked(cell)
        self.desks.counts = dict(self.COUNTED)
        before = Record(self.desks.allowance, self.desks.spent, self.desks.counts)
        number, answers, output, spans = self.desks.file_all(desk, files, setting, sizes, limits, lent)
        worked = [list(said) if len(said) == 2 else [0, 0] for said, _, _ in answers]
        work = [counts['work'] for _, counts, _ in answers]
        told = [self.number(cell['batch'])] + [self.listed(cell[name]) for name in ('no.', 'needed', 'work')]
        self.agree('batches', where, told, [number, [n for n, _ in worked], [needed for _, needed in worked], work])
        page = b'' if cell['output'] == 'no bytes' else self.page.made_of(cell['output'])
        self.agree('outputs', where, (page, self.tool.spans_in(cell['spans'])), (output, spans))
        if cell['work kept'] == 'as before':
            self.agree('counts as before', where, self.COUNTED, self.desks.counts)
        else:
            last = answers[-1][1] if answers else dict.fromkeys(COUNTS, 0)
            self.agree('counts kept', where, dict(last, work=self.number(cell['work kept'])), self.desks.counts)
        self.charged(where, cell, desk, words, sum(work))
        if number == 0:
            self.in_two(where, before, (desk, files, setting, sizes, limits), (answers, output, spans))

    def in_two(self, where, before, asked, whole):
        """The first files in one call and the others in a second, on what is left: the same, wherever the cut is."""
        desk, files, setting, sizes, limits = asked
        for cut in range(0, len(files) + 1, 1 + len(files) // 8):
            record = Record(before.allowance, before.spent, before.counts)
            _, answers, output, spans = record.file_all(desk, files[:cut], setting, sizes, limits)
            _, *others = record.file_all(desk, files[cut:], setting, less(sizes, output, spans), limits)
            both = answers + others[0], output + others[1], spans + others[2]
            kept = record.allowance + record.spent, record.counts
            self.agree('batches in two', '%s at %d' % (where, cut), (whole, self.desks.allowance + self.desks.spent, self.desks.counts), (both, *kept))

    def whole(self):
        self.name_rows()
        self.begin()
        for where, cell in self.cells(*self.HEAD[:6]):
            self.batch(where, cell)
        return self.told('several files in one call')


def main(arguments):
    if arguments[0] == '--rule':
        sys.dont_write_bytecode = True
        import rulepage
        named = dict(zip(arguments[2::2], arguments[3::2]))
        different = rulepage.main(arguments[1], named.get('--page-program'), named.get('--calls-program'))
        for part in LivePage, DeskPage, BatchPage:
            different |= part(arguments[1]).whole()
        sys.exit(different)
    if arguments[0] == '--page':
        done = wrong = 0
        for name in arguments[1:]:
            for block in open(name).read().split('\n\n'):
                if not block.strip():
                    continue
                given, wanted = [unhex(line.split(' ', 1)[1]) for line in block.strip().split('\n')]
                done += 1
                if program(given) != wanted:
                    wrong += 1
                    print(given.hex(), program(given), wanted)
        return print(done, 'inputs,', wrong, 'different')
    if len(arguments) == 5 and arguments[1].isdigit():
        return print('\n'.join(shown(*answer(bytes.fromhex(arguments[0]), [int(x) for x in arguments[1:]], *PAGE))))
    done, kinds, wrong = 0, {}, 0
    for name in arguments:
        for block in open(name).read().split('\n\n'):
            lines = block.strip().split('\n')
            if lines == ['']:
                continue
            case = dict(line.split(' ', 1) for line in lines[:6])
            given = [[int(x) for x in case[k].split()] for k in ('settings', 'sizes', 'limits')]
            try:
                said = shown(*answer(unhex(case['file']), *given))
            except AssertionError as e:
                said = [str(e)[:300]]
            done += 1
            kind = ' '.join(lines[6].split()[:2]) if lines[6].startswith('refused') else 'page'
            kinds[kind] = kinds.get(kind, 0) + 1
            if said != lines[6:]:
                wrong += 1
                if wrong <= 5:
                    print('\n'.join(lines), '\nFROM THE RULE:', *said, sep='\n')
    print(done, 'calls,', answer.by_rule, 'by part 2 too,', wrong, 'different;', ', '.join('%s: %d' % k for k in sorted(kinds.items())))


if __name__ == '__main__':
    if sys.argv[1:]:
        main(sys.argv[1:])
    else:
        print(__doc__)
