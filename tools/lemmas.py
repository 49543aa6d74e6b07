#!/usr/bin/env python3
"""For docs/DESIGN-PASS.md: compares the public names of crates/*/proofs, at any indentation, as they were at the commit in the page's first line and as
they are in the checkout. Run in the root of a checkout that has that commit:
    tools/lemmas.py            counts; then each name that is gone and not named in the page's table of them, and status 1 if there is one
    tools/lemmas.py gone       all that are gone, CRATE NAME, file and line
    tools/lemmas.py changed    those whose statement is another, or that of a module they stand in, with both texts
    tools/lemmas.py unnamed    of these, those that the page's section on theorems doesn't name
A lemma or theorem is a public name that is no definition (`abbrev`, `unfoldable`), record or type. Fields and constructors are a part of what they stand in.
Left out are Answers.antt and Invariants.antt, whose names are the check's own. What moved to the specs of its crate is not gone."""
import collections, glob, io, os, re, subprocess, sys, tarfile

PAGE = open('docs/DESIGN-PASS.md', encoding='utf-8').read()
COMMIT = PAGE.split('\n', 1)[0].strip()
WORDS = ('abbrev', 'unfoldable', 'opaque', 'pub', 'record', 'data', 'mod')
Item = collections.namedtuple('Item', 'crate name kind top text place')

def before():
    tar = subprocess.run(['git', 'archive', COMMIT, 'crates'], check=True, capture_output=True).stdout
    with tarfile.open(fileobj=io.BytesIO(tar)) as all:
        return {m.name: all.extractfile(m).read().decode('utf-8') for m in all if m.name.endswith('.antt')}

def now():
    return {f: open(f, encoding='utf-8').read() for f in glob.glob('crates/*/**/*.antt', recursive=True) if '/out/' not in f}

def indent(line):
    return len(line) - len(line.lstrip())

def items(files, part):
    for f in sorted(files):
        crate = f.split('/')[1]
        if f.split('/')[2] != part or os.path.basename(f) in ('Answers.antt', 'Invariants.antt') and part == 'proofs':
            continue
        lines = files[f].split('\n')
        around = []                                  # (indentation, is a record or type, text) of what the line stands in
        for n, line in enumerate(lines):
            text = line.strip()
            if not text or text.startswith('--'):
                continue
            while around and indent(line) <= around[-1][0]:
                around.pop()
            words = text.split()
            k = next((k for k, w in enumerate(words) if w not in WORDS), len(words))
            head = words[:k]
            if 'pub' in head and k < len(words) and not any(a[1] for a in around):
                name = re.match(r'[^\s:({;]+', words[k]).group(0)
                kind = next((w for w in ('mod', 'record', 'data') if w in head), None) or ('definition' if 'abbrev' in head or 'unfoldable' in head else 'lemma')
                own = [text]
                for more in lines[n + 1:]:           # what belongs to it: lines further in, and of a definition its equations
                    further = more.strip() and indent(more) > indent(line)
                    equation = kind == 'definition' and indent(more) == indent(line) and re.match(re.escape(name) + r'[ =]', more.strip())
                    if not (further or equation):
                        break
                    if not more.strip().startswith('--'):
                        own.append(more.strip())
                yield Item(crate, name, kind, indent(line) == 0, ' '.join([a[2] for a in around if a[2].startswith('module ')] + own), '%s:%d' % (f, n + 1))
            if 'record' in head or 'data' in head:
                around.append((indent(line), True, text))
            elif text.startswith('module ') or text == 'where' or text.endswith(' where'):
                around.append((indent(line), False, text))

def by_name(found):
    names = collections.defaultdict(list)
    for i in found:
        names[i.crate, i.name].append(i)
    return names

def named():
    """the names in the first column of the page's table of lemmas that are gone, each with its crate"""
    rows = PAGE[PAGE.index('### Lemmas that are gone'):].split('\n| ')[1:]
    for row in rows:
        for group in row.split(' | ')[0].split(';'):
            crate = re.match(r'\s*(\w+)', group)
            for name in re.findall(r'`([^`]+)`', group):
                yield crate.group(1), name

def say(*found):
    for i in found:
        print(i.crate, i.name, i.place)

old, new = before(), now()
was = by_name(items(old, 'proofs'))
there = by_name(items(new, 'proofs'))
moved = by_name(items(new, 'specs'))
gone = [i for k, v in was.items() if len(there[k]) + len(moved[k]) < len(v) for i in v if i.text not in [j.text for j in there[k]]]
same = [i for k, v in was.items() for i in v if i.kind == 'lemma' and i.text in [j.text for j in there[k]]]
changed = [i for k, v in was.items() for i in v if i.kind == 'lemma' and i not in gone and i not in same]
told = set(named())
lacking = [i for i in gone if (i.crate, i.name) not in told]

def lemmas(names):
    found = [i for v in names.values() for i in v if i.kind == 'lemma']
    return '%d lemmas and theorems (%d at the margin, %d in modules)' % (len(found), sum(i.top for i in found), sum(not i.top for i in found))

if sys.argv[1:] == ['gone']:
    say(*gone)
elif sys.argv[1:] == ['changed']:
    for i in changed:
        say(i)
        print('- ' + i.text)
        for j in there[i.crate, i.name]:
            print('+ ' + j.text)
elif sys.argv[1:] == ['unnamed']:
    section = PAGE[PAGE.index('### Theorems of proofs/'):PAGE.index('### Functions that are gone')]
    say(*(i for i in changed if not re.search(r'`(?:%s::)?%s`' % (i.crate, re.escape(i.name)), section)))
else:
    print('then:', lemmas(was))
    print('now: ', lemmas(there))
    print('with the same statement: %d; with another: %d; gone: %d' % (len(same), len(changed), sum(i.kind == 'lemma' for i in gone)))
    print('gone with them: %s' % ', '.join('%d %s' % (n, k) for k, n in sorted(collections.Counter(i.kind for i in gone if i.kind != 'lemma').items())))
    print('gone and not named in the table: %d' % len(lacking))
    say(*lacking)
    sys.exit(1 if lacking else 0)
