#!/usr/bin/env python3
"""Small helpers for the proof loop. Run from the repository's root (where crates.txt is).

  prove.py dev NAME [FLAGS]    rt check in the crate's folder, with what is proved, notes and offered files hidden, and module names shortened
  prove.py only NAME FN        the same of one function, notes and all: FN is as the check names it, without the crate (m::f)
  prove.py stub NAME FN        rt check --start: writes FN's proof files, or adds what they lack, and prints each goal that is left with the
                               names that can be cited there
  prove.py size                lines of code, specs and proofs for each listed crate

For the older kit there were also `paths`, `at` and `again`, which wrote the chains of places in its Proof.antt files, and `put`. Today's names
are flat and printed by the check, so they went.
"""
import glob, os, re, subprocess, sys

SHORT = re.compile(r'(?:borrow\.(?:Table|Rule|Author)\.|Rattle\.\w+\.(?:specs|proofs)\.|Prim\.Native\.Nat\.|lib\.ListN\.|mathlib\.Core\.\w+\.)')
QUIET = re.compile(r'fn \S+: proved$|(?:statements|checked|logic|axioms|crate) |rt: ')

def check(name, *flags):
    folder = os.path.join('crates', name)
    if not os.path.isdir(folder):
        sys.exit('no crate ' + name)
    got = subprocess.run(['rt', 'check', *flags], cwd=folder, stdout=subprocess.PIPE, stderr=subprocess.STDOUT, text=True)
    return got.stdout.split('\n'), got.returncode

def tell(lines, hide_notes):
    out, hidden = [], False
    for line in lines:
        if hide_notes and line.startswith(('note:', 'help:')):
            hidden = True
            continue
        if hidden and (line.startswith('  ') or line == ''):
            continue
        hidden = False
        if QUIET.match(line):
            continue
        line = SHORT.sub('', line)
        out.append(line if len(line) < 900 else line[:600] + ' ... ' + line[-250:])
    print('\n'.join(out)[:20000])

def dev(name, *flags):
    lines, code = check(name, *flags)
    tell(lines, True)
    return code

def only(name, fn):
    lines, code = check(name, '--only', '%s::%s' % (name, fn))
    tell(lines, False)
    return code

def stub(name, fn):
    lines, code = check(name, '--start', '%s::%s' % (name, fn), '--allow-holes')
    tell(lines, False)
    return code

def size():
    def count(pattern):
        return sum(1 for p in glob.glob(pattern, recursive=True) for l in open(p, encoding='utf-8')
                   if l.strip() and not l.strip().startswith(('--', '//')))
    total = [0, 0, 0]
    print('%-20s %8s %8s %8s' % ('crate', 'source', 'specs', 'proofs'))
    for line in open('crates.txt', encoding='utf-8'):
        words = line.split('#')[0].split(':')[0].split()
        if not words:
            continue
        name = words[0]
        row = [count('crates/%s/%s' % (name, p)) for p in ('src/**/*.rt', 'specs/**/*.antt', 'proofs/**/*.antt')]
        total = [a + b for a, b in zip(total, row)]
        print('%-20s %8d %8d %8d' % (name, *row))
    print('%-20s %8d %8d %8d' % ('all', *total))
    return 0

if __name__ == '__main__':
    verbs = {'dev': dev, 'only': only, 'stub': stub, 'size': size}
    if len(sys.argv) < 2 or sys.argv[1] not in verbs:
        sys.exit(__doc__)
    sys.exit(verbs[sys.argv[1]](*sys.argv[2:]))
