"""Reads docs/RULE.md and works out again what it works out: the worked files of part 3 (pages, costs, spans), the steps, counts, needs and
refusals of part 4, the inputs of part 5, the annex and every check number. `fromrule.py --rule` runs it, and then reads the steps of part 7
(`LivePage` there), calls for desks (`DeskPage`) and several files in one call (`BatchPage`).

What it looks for is the head of a table, and the words `file`, `input`, `output` and `check` of an indented block. A file in a table
is made of parts with `and` between them: nothing; `hexadecimal`; 3.4 (the file of that section); 3.4 with `hexadecimal` as line 2 (of
its table); 32,769 bytes `hexadecimal`.

A table of pages, counts or needs begins with `file`, `W`, `newline cost`, `policy` and may go on with `rule`; then come the columns of
one of the three, the needs under the names of the sizes. A row of needs is tried too: the same page at just these sizes, and with one of
them smaller the refusal of that kind. A table of refusals begins with `no.`, `file`; in a column `but` stands what is other than usual
(`frontier 1, W 3`).
"""
import re
import subprocess

import fromrule
from fromrule import COUNTS, PAGE, SIZES

HEX = re.compile(r'`([0-9a-f]{2}(?: [0-9a-f]{2})*)`')
SHOWN = [name for name in COUNTS if name != 'fit']
LIMITS = ['work limit', 'visit limit']
AT_ONCE = 400000  # bytes of calls, since the program of calls reads 524,288 at most
USUAL = 80, 1, 0, 1  # the setting of a table that has none; without a column or a word for it the rule is 1
SETTING = ['W', 'newline cost', 'policy', 'rule']


def row_of_bytes(text):
    return b''.join(bytes.fromhex(found) for found in HEX.findall(text))


def check_number(data):
    a, b = 1, 0
    for byte in data:
        a = (a + byte) % 65521
        b = (b + a) % 65521
    return '%04x%04x' % (b, a)


def tables(lines):
    """Every table: the section that it stands in, the text before it, its head and its rows, as lists of cells."""
    section, before, rows = '', '', []
    for line in lines + ['']:
        if line.startswith('|'):
            rows.append([cell.strip() for cell in line.strip().strip('|').split('|')])
            continue
        if rows:
            yield section, before, rows[0], rows[2:]
            before, rows = '', []
        heading = re.match(r'#+ (\d+(?:\.\d+)?)', line)
        if heading:
            section, before = heading[1], ''
        before += ' ' + line


def worked_bytes(lines):
    """The bytes in the columns `bytes`, `file`, `page` and `input` of tables and in files of their own, as they stand."""
    out, head, of_file = b'', None, False
    for line in lines:
        cells = [cell.strip() for cell in line.strip('|').split('|')]
        if not line.startswith('|'):
            head, of_file = None, line.startswith('    ') and (of_file or line.strip() == 'file')
            out += bytes.fromhex(line) if of_file and line.strip() != 'file' else b''
        elif head:
            out += b''.join(row_of_bytes(cell) for name, cell in zip(head, cells) if name in ('bytes', 'file', 'page', 'input'))
        else:
            head = cells
    return out


def blocks(lines):
    """Every run of indented lines, with the section that it stands in."""
    section, block = '', []
    for line in lines + ['']:
        if line.startswith('    '):
            block.append(line.strip())
            continue
        if block:
            yield section, block
            block = []
        heading = re.match(r'#+ (\d+(?:\.\d+)?)', line)
        section = heading[1] if heading else section


class Page:
    def __init__(self, name, program):
        self.text = open(name, encoding='utf-8').read()
        self.lines = self.text.split('\n')
        self.program = program
        self.files, self.done, self.different, self.ran, self.calls = {}, {}, [], 0, []
        self.tables = list(tables(self.lines))
        for section, _, head, rows in self.tables:
            if head == ['bytes', 'meaning']:
                self.files[section] = [row_of_bytes(row[0]) for row in rows]
        for section, block in blocks(self.lines):
            if block[0] == 'file':
                self.files[section] = [bytes.fromhex(line) for line in block[1:]]

    def agree(self, what, where, said, worked_out):
        self.done[what] = self.done.get(what, 0) + 1
        if said != worked_out:
            self.different.append('%s, %s: the page says %s, worked out %s' % (what, where, said, worked_out))

    def made_of(self, cell):
        out = b''
        for part in cell.split(' and '):
            named = re.fullmatch(r'(\d\.\d+)(?: with `([0-9a-f ]+)` as line (\d+))?', part)
            many = re.fullmatch(r'([\d,]+) bytes `([0-9a-f]{2})`', part)
            if named:
                records = list(self.files[named[1]])
                if named[2]:
                    records[int(named[3]) - 1] = bytes.fromhex(named[2])
                out += b''.join(records)
            elif many:
                out += bytes.fromhex(many[2]) * number(many[1])
            elif part != 'nothing':
                if not HEX.fullmatch(part):
                    raise SystemExit('not a file: ' + cell)
                out += row_of_bytes(part)
        return out

    def run(self, given):
        """The program `page` on an input, held to what fromrule.py says that it writes."""
        if self.program and len(given) <= 32769:
            done = subprocess.run([self.program], input=given, capture_output=True)
            self.ran += 1
            if (done.stdout, done.stderr, done.returncode) != (fromrule.program(given), b'', 0):
                self.different.append('the program differs on ' + given.hex())

    def call(self, data, setting, sizes, limits):
        if (sizes, limits) == PAGE and setting[2] < 2 and setting[3] in (1, 2):
            self.run(set_before(data, *setting))
        answer = fromrule.answer(data, setting, sizes, limits)
        given = ['file ' + (data.hex() or '-')] + [
            name + ' ' + ' '.join(str(value) for value in values)
            for name, values in (('settings', setting), ('sizes', sizes), ('limits', limits))]
        self.calls.append((given, fromrule.shown(*answer)))
        return answer

    def run_calls(self, program):
        """All calls in the sample's form, answered by a program that takes them so (crates/test_calls)."""
        given, wanted = '', ''
        for number, (call, said) in enumerate(self.calls):
            given += '\n'.join(['case %d' % number] + call) + '\n'
            wanted += '\n'.join(['case %d' % number] + said) + '\n\n'
            if len(given) > AT_ONCE or number + 1 == len(self.calls):
                self.run_part(program, given, wanted)
                given, wanted = '', ''

    def run_part(self, program, given, wanted):
        written = subprocess.run([program], input=given.encode(), capture_output=True).stdout.decode()
        for one, other in zip(written.split('\n\n'), wanted.split('\n\n')):
            if one != other:
                self.different.append('the program of calls differs: ' + one + ' / ' + other)
        if written.strip() != wanted.strip():
            self.different.append('the program of calls answers otherwise')

    def results(self, section, head, rows):
        """Pages, counts or needs: a row has the file, the setting, and what comes of it."""
        for row in rows:
            cell = dict(zip(head, row))
            setting = [number(cell[name]) for name in SETTING[:3]] + [number(cell.get('rule', '1'))]
            said, counts, needs = self.call(self.made_of(cell['file']), setting, *PAGE)
            where = '%s: %s at %s' % (section, cell['file'], setting)
            if 'work' in cell:
                self.agree('counts', where, [number(cell[name]) for name in SHOWN], [counts[name] for name in SHOWN])
            if 'page' in cell:
                told = row_of_bytes(cell['page']), spans_in(cell.get('spans', 'none')), (number(cell['overflow']), number(cell['burden']))
                self.agree('pages', where, told, said)
            if 'stack' in cell:
                self.agree('needs', where, [number(cell[name]) for name in SIZES], needs and list(needs.values()))
                if needs:
                    self.suffice(where, self.made_of(cell['file']), setting, (said, counts, needs))

    def suffice(self, where, data, setting, answer):
        """A page's needs: lent just these, the same comes; with one of them one less, or 0, that kind's refusal."""
        needs = list(answer[2].values())
        self.agree('calls at the needs', where, answer, self.call(data, setting, needs, PAGE[1]))
        for kind, need in enumerate(needs):
            for size in sorted({need - 1, 0} if need else set()):
                said, _, _ = self.call(data, setting, needs[:kind] + [size] + needs[kind + 1:], PAGE[1])
                own = len(said) == 2 and said[0] == 13 + kind and size < said[1] <= need
                self.agree('calls with one size smaller', '%s, %s %d' % (where, SIZES[kind], size), own, True)

    def refusals(self, section, head, rows):
        for row in rows:
            cell = dict(zip(head, row))
            setting, sizes, limits = changed(cell.get('but', ''))
            said, counts, _ = self.call(self.made_of(cell['file']), setting, sizes, limits)
            # 2 to 10 have no columns for the counts, which are 0; others may leave them out
            names = SHOWN if 'work' in cell or number(cell['no.']) <= 10 else []
            told = [number(cell['no.']), number(cell.get('needed', '0'))] + [number(cell.get(name, '0')) for name in names]
            self.agree('refusals', '%s: %s' % (section, row), told, list(said[:2]) + [counts[name] for name in names])

    def steps(self, section, before, rows):
        named = re.findall(r'The file of (\d\.\d+) at W (\d+), newline cost (\d+)(?:, rule (\d))?', before)[-1]
        file = fromrule.File(self.made_of(named[0]))
        machine = fromrule.Machine(file, int(named[1]), int(named[2]), 0, int(named[3] or 1), PAGE[0], *PAGE[1])
        machine.render()
        self.agree('tables of steps', section + ': ' + named[0], [row[:2] for row in rows], [step_row(*step) for step in machine.steps])

    def frontiers(self, section, rows):
        """Candidates presented to an empty frontier, one after the other."""
        machine = fromrule.Machine(None, *USUAL, PAGE[0], *PAGE[1])
        for column, cost, frontier, pruned, *_ in rows:
            machine.present(pair(cost), int(column), None, False)
            held = '; '.join('%s at %d' % (x[0], x[1]) for x in machine.frontier)
            self.agree('candidates presented', section, [frontier, pruned], [held, str(machine.count['pruned'])])

    def inputs(self, section, rows):
        for row in rows:
            given = self.made_of(row[0])
            self.agree('inputs', '%s: %s' % (section, row[0]), b'refused %d\n' % number(row[1]), fromrule.program(given))
            self.run(given)

    def annex(self):
        everything = b''
        for section, block in blocks(self.lines):
            if block[0] == 'input':
                everything += self.entry(section, block)
        for what, data in ('worked files', worked_bytes(self.lines)), ('annex', everything):
            for said in re.findall('check number of the %s is `(\\w+)`' % what, ' '.join(self.text.split())) or ['none']:
                self.agree('check numbers', what, said, check_number(data))

    def entry(self, section, block):
        """An entry of the annex: `input` and its bytes, `output` and its bytes, `check` and the number; the setting in words above."""
        cut = block.index('output')
        given, written = [bytes.fromhex(' '.join(part)) for part in (block[1:cut], block[cut + 1:-1])]
        above = self.text[self.text.index('### %s ' % section):]
        told = re.search(r'Page width ([\d,]+), newline cost ([\d,]+), policy (\d)(?:, rule (\d))?', above)
        setting = set_before(b'', *[number(value) for value in told.groups('1')])
        self.agree('settings', section, setting, given[:len(setting)])
        self.agree('entries of the annex', section, written, fromrule.program(given))
        self.agree('check numbers', section, block[-1], 'check ' + check_number(given + written))
        self.run(given)
        return given + written

    def whole(self):
        for section, before, head, rows in self.tables:
            if head[:4] == ['file'] + SETTING[:3]:
                self.results(section, head, rows)
            elif head[:2] == ['no.', 'file']:
                self.refusals(section, head, rows)
            elif head[:2] == ['step', 'work']:
                self.steps(section, before, rows)
            elif head[:2] == ['column', 'cost']:
                self.frontiers(section, rows)
            elif head[:2] == ['input', 'refused by']:
                self.inputs(section, rows)
        self.annex()


def number(text):
    return int(text.replace(',', ''))


def pair(text):
    return tuple(int(value) for value in text.strip('()').split(', '))


def spans_in(text):
    """(annotation, start, end, none or the number of the span around it), .."""
    return [[int(a), int(s), int(e), None if up == 'none' else int(up)] for a, s, e, up in re.findall(r'\((\d+), (\d+), (\d+), (\w+)\)', text)]


def changed(text):
    """The usual call with what a cell says instead: `memo 0, work limit 3, W 1`."""
    values = dict(zip(SETTING + SIZES + LIMITS, list(USUAL) + PAGE[0] + PAGE[1]))
    for part in filter(None, text.split(', ')):
        name, value = part.rsplit(' ', 1)
        if name not in values:
            raise SystemExit('no size or limit: ' + part)
        values[name] = number(value)
    given = list(values.values())
    return given[:4], given[4:13], given[13:]


def set_before(data, width, newline, policy, rule):
    fields = [(1, width), (2, newline)]
    return bytes([sum(bit for bit, value in fields if value) + 4 * policy + 8 * (rule == 2)]) + b''.join(
        value.to_bytes(4, 'little') for _, value in fields if value) + data


def step_row(task, values, before, after):
    key, rest = values[0], values[1:]
    name = {'evaluate': 'evaluate', 'go_on': 'continue', 'right': 'right', 'pass_on': 'pass on', 'unite': 'unite', 'unite_all': 'unite all',
            'wrap': rest[0] if rest else ''}[task]
    shown = key if task in ('evaluate', 'pass_on', 'unite') else ('..',) + tuple(rest[{'right': 2, 'wrap': 1}.get(task, 0):])
    work = '' if after == before else '%d' % after if after == before + 1 else '%d–%d' % (before + 1, after)
    return ['%s (%s)' % (name, ', '.join(str(value) for value in shown)), work]


def main(name, program=None, calls_program=None):
    page = Page(name, program)
    page.whole()
    if calls_program:
        page.run_calls(calls_program)
    for line in page.different:
        print(line)
    edition = re.search(r'Edition (\d+)', page.text)
    said = ['edition ' + edition[1] if edition else 'no edition', '%d files' % len(page.files)]
    said += ['%d %s' % (number, what) for what, number in page.done.items()]
    said += ['%d inputs to `page`' % page.ran] if program else []
    said += ['%d calls to the program of calls' % len(page.calls)] if calls_program else []
    print('; '.join(said) + ': %d different' % len(page.different))
    return 1 if page.different else 0
