#!/usr/bin/env python3
"""Runs records/main.rt.txt, a program over `printer::render`, on calls of the frozen sample and holds what it writes to their answers.

No program of crates/ lends records. This one is not proved. It is put into a copy of the tree and run from source by `rt try`, interpreted and
compiled with checks. The desks take turns; of every second call the work limit is what
its desk may still do, and its own limit is none, which makes no difference. Each call that has a page is made again with one span record less
than its size says, which is refused by 1, and for a desk above 7, which is refused by 28.
"""
import collections, os, shutil, struct, subprocess, sys, tempfile

# The interpreter stops after 20,000,000 steps: calls of more work or visits are left out, and so many are made in one run, of so much work
# together.
MOST, AT_ONCE, WORK_AT_ONCE = 1000, 40, 3000
HERE = os.path.dirname(os.path.abspath(__file__))
LISTED = 'test_records: file_tables cost stats spans solve_workspace desks printer streams\n'

def sample():
    """The calls of sample/cases.txt: settings, sizes and limits; the file; the lines of the answer."""
    for case in open(HERE + '/sample/cases.txt').read().strip().split('\n\n'):
        lines = case.split('\n')
        said = {line.split()[0]: line.split()[1:] for line in lines}
        words = [int(word) for name in ('settings', 'sizes', 'limits') for word in said[name]]
        file = b'' if said['file'] == ['-'] else bytes.fromhex(said['file'][0])
        answer = [line for line in lines if line.split()[0] in ('page', 'refused', 'cost', 'span', 'counts', 'needs')]
        work, visits = int(said['counts'][0]), int(said['counts'][9])
        if work <= MOST and visits <= MOST:
            yield words, file, answer

def calls():
    """With the number of span records that are lent, the desk, its allowance and what it has spent."""
    for n, (words, file, answer) in enumerate(sample()):
        spans, limit = words[12:14]
        account = [2 ** 64 - 1, 0]
        if n % 2 and limit < 2 ** 63:
            words, account = words[:13] + [2 ** 64 - 1] + words[14:], [limit + n, n]
        yield words + [spans, n % 8] + account, file, answer
        if answer[0].startswith('page'):
            if spans > 0:
                yield words + [spans - 1, n % 8] + account, file, ['refused 1 0', 'counts' + ' 0' * 10]
            yield words + [spans, 8 + n] + account, file, ['refused 28 0', 'counts' + ' 0' * 10]

def kind(answer):
    if answer[0].startswith('refused'):
        return int(answer[0].split()[1])
    return -1 if answer[2].startswith('span') else 0

def parts(every):
    """The calls of each run."""
    part, work = [], 0
    for call in every:
        own = int([line for line in call[2] if line.startswith('counts')][0].split()[1])
        if len(part) == AT_ONCE or part and work + own > WORK_AT_ONCE:
            yield part
            part, work = [], 0
        part.append(call)
        work += own
    yield part

def main():
    every = list(calls())
    with tempfile.TemporaryDirectory() as tree:
        shutil.copytree(HERE + '/../crates', tree + '/crates', ignore=shutil.ignore_patterns('out'))
        crate, cases = tree + '/crates/test_records', tree + '/cases'
        os.makedirs(crate + '/src')
        os.makedirs(cases)
        shutil.copy(HERE + '/records/main.rt.txt', crate + '/src/main.rt')
        with open(HERE + '/../crates.txt') as listed, open(tree + '/crates.txt', 'w') as copy:
            copy.write(listed.read() + LISTED)
        runs = 0
        for part in parts(every):
            with open('%s/%03d' % (cases, runs), 'wb') as stdin, open('%s/%03d.stdout' % (cases, runs), 'w') as stdout:
                for words, file, answer in part:
                    stdin.write(struct.pack('<20Q', *words, len(file)) + file)
                    stdout.write('\n'.join(answer) + '\n\n')
            runs += 1
        done = subprocess.run(['rt', 'try', '--cases', cases], cwd=crate, stdout=subprocess.PIPE, stderr=subprocess.STDOUT, text=True)
        print(done.stdout)
    kinds = collections.Counter(kind(answer) for _, _, answer in every)
    names = {-1: 'page with spans', 0: 'page without'}
    print('%d calls of printer::render, in %d runs;' % (len(every), runs), ', '.join('%s: %d' % (names.get(k, k), n) for k, n in sorted(kinds.items())))
    return done.returncode

sys.exit(main())
