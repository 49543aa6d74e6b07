#!/usr/bin/env python3
"""For docs/DESIGN-PASS.md: counts the places of points 1 to 7 in crates/*/src/*.rt. Run in the root of a checkout:
    tools/places.py 1        lists the places of point 1, file:line: text, and says how many
    tools/places.py          totals of all points
A place that is listed by name here and no longer stands in the checkout is printed as GONE and not counted."""
import glob, re, sys

FILES = sorted(glob.glob('crates/*/src/*.rt'))
SRC = {f: open(f, encoding='utf-8').read().split('\n') for f in FILES}

def code(line):
    return re.sub(r'//.*$', '', line)

def path(short):                       # 'pairs/pairs' -> crates/pairs/src/pairs.rt
    c, f = short.split('/')
    return 'crates/%s/src/%s.rt' % (c, f)

def find(short, anchor):
    """anchor: 'fn x', 'enum x', 'struct x', 'const x', or a piece of text; 'fn x > text' looks in the body of fn x"""
    f = path(short)
    lines = SRC.get(f)
    if lines is None:
        return None
    start = 0
    if ' > ' in anchor:
        head, anchor = anchor.split(' > ', 1)
        at = find(short, head)
        if at is None:
            return None
        start = at
    m = re.match(r'(fn|enum|struct|const) (\w+)$', anchor)
    for k in range(start, len(lines)):
        l = code(lines[k])
        if m:
            if re.search(r'\b%s %s\b' % (m.group(1), m.group(2)), l):
                return k
        elif anchor in l:
            return k
        if start and k > start and re.match(r'}', l):
            return None
    return None

def show(short, anchor, note=''):
    k = find(short, anchor)
    f = path(short)
    if k is None:
        print('GONE %s: %s' % (f, anchor))
        return 0
    print('%s:%d: %s%s' % (f, k + 1, SRC[f][k].strip(), ('   -- ' + note) if note else ''))
    return 1

def changed(short, anchor):
    """a named function or struct that by now has an Option, a Result or a generic bound for what it had"""
    if not re.match(r'(fn|struct) \w+$', anchor):
        return False
    k = find(short, anchor)
    if k is None:
        return False
    lines = SRC[path(short)]
    text = ''
    for j in range(k, len(lines)):
        l = code(lines[j])
        if anchor.startswith('fn') and (re.match(r'\s*(requires|ensures)\b', l) or l.rstrip() == '{'):
            break
        text += l
        if l.startswith('}') or (anchor.startswith('fn') and l.rstrip().endswith('{')):
            break
    return bool(re.search(r'\bOption<|(?<!io::)\bResult<', text))

def items(title, table):
    print('## ' + title)
    n = 0
    for short, anchor, note in sorted(table, key=lambda x: path(x[0])):
        if title.startswith('1') and changed(short, anchor):
            print('CHANGED %s: %s' % (path(short), anchor))
            continue
        n += show(short, anchor, note)
    print('   = %d' % n)
    return n

# ---------------------------------------------------------------- point 1

def enums():
    out = []
    for f in FILES:
        for k, l in enumerate(SRC[f]):
            m = re.match(r'\s*(?:pub(?:\(\w+\))? )?enum (\w+)', l)
            if not m:
                continue
            body = []
            for j in range(k + 1, len(SRC[f])):
                if SRC[f][j].startswith('}'):
                    break
                body.append(SRC[f][j].strip().rstrip(','))
            out.append((f, k + 1, m.group(1), [b for b in body if b]))
    return out

def shaped():
    """Own enums with two variants, or with a variant Refused(Refusal)"""
    return [e for e in enums() if len(e[3]) == 2 or 'Refused(Refusal)' in e[3]]

ONE_B = [  # a struct with a flag, or a number that is one, beside values that only mean something then
 ('records/book', 'struct Survey', 'right: bool; the rest counts only if right: Option<Survey>'),
 ('records/book', 'struct Asked', 'verdict, and held and size 0 on a refusal: Result<(usize, usize), Refusal>'),
 ('records/book', 'struct Located', 'number 0: not found, its: unused then: Option<(usize, Record)>'),
 ('records/book', 'struct Entry', 'number 0: no record is written, new unused then: Option<(usize, Record)>; answer'),
 ('records/book', 'struct Started', 'fresh 0 and the old head on a refusal: Result<Head, Refusal>'),
 ('witness/witness', 'struct Bottom', 'child 0: none, count 0 then: Option<(child, count)>'),
 ('transducer/translate', 'struct Emission', 'end past out.len(): too long; levels 257: too deep: Result<usize, Refusal>'),
]
ONE_C = [  # functions that answer a sentinel
 ('codes/symbol', 'fn symbol_of', '64: none'),
 ('join/discover', 'fn join_rhs', '65: too many'),
 ('join/discover', 'fn join_initial', '65: too many'),
 ('runs/walk', 'fn apply', '65: too many'),
 ('runs/walk', 'fn walk', '65: too many'),
 ('merging/refining', 'fn find_placed', 'to: none'),
 ('merging/refining', 'fn placed_member', 'n: none'),
 ('merging/refining', 'fn find_class', 'count: none'),
 ('pairs/pairs', 'fn first_clash', 'n: none'),
 ('prefixes/callers', 'fn first_flag', '128: none'),
 ('transducer/translate', 'fn deeper', '257: too many levels'),
 ('transducer/translate', 'fn added', 'limit + 1: too many'),
 ('transducer/translate', 'fn apply', 'limit + 1: too many; deep 257'),
 ('transducer/translate', 'fn walk', 'limit + 1: too many; deep 257'),
 ('transducer/translate', 'fn fill', 'limit + 1: too many; deep 257'),
 ('witness/other', 'fn step_distance', '0: none'),
 ('witness/other', 'fn find_distance', '0: none'),
 ('exports/registered', 'fn record_at', 'an unused record: none'),
 ('samples/line', 'fn call_number', '15: none'),
 ('samples/line', 'fn asked', '15: no call'),
 ('samples/line', 'fn put_files', 'FULL in the array'),
 ('samples/reader', 'fn find', 'the length: none'),
 ('samples/reader', 'fn between', 'an empty part: none'),
 ('samples/reader', 'fn nth', 'an empty part: none'),
 ('samples/reader', 'fn with_digit', 'NO_NUMBER'),
 ('samples/reader', 'fn number', 'NO_NUMBER'),
 ('samples/reader', 'fn append', 'FULL'),
 ('samples/reader', 'fn repeat', 'FULL'),
 ('samples/reader', 'fn put_item', 'FULL'),
 ('samples/reader', 'fn put_items', 'FULL'),
 ('samples/reader', 'fn put_run', 'FULL'),
 ('samples/reader', 'fn put_file', 'FULL'),
]
ONE_D = [  # public functions that hand out an empty part for none
 ('formats/file', 'fn transducer_counts', 'refused: an empty part'),
 ('formats/file', 'fn transducer_marks', 'refused: an empty part'),
 ('comparison/shorter', 'fn shorter', 'two that differ, refused: an empty part'),
 ('records/making', 'fn held_body', 'not held, no registry: an empty part'),
 ('registry/lent', 'fn body', 'the same'),
 ('demands/lib', 'fn file_in', 'refused: an empty part'),
]
ONE_E = [  # flags and "none" as numbers in a table or in a number
 ('classes/classes', 'fn number_classes > let mut numbers', 'numbers: 255: none: [Option<u8>; 256]'),
 ('discovery/queue', 'fn enter > place[c] > 0', 'place: 0: none, else the number and 1: Option<u8> by state'),
 ('merging/refining', 'fn refine_classes > let mut pending', 'pending: 0 or 1: [bool; 128]'),
 ('merging/refining', 'fn refine_classes > let mut reps', 'reps: 255: none: [Option<u8>; 128]'),
 ('merging/refining', 'fn refine_more > let mut callers', 'callers: 0 or 1, and the first and last by 128 - p and p + 1, 0: none'),
 ('pairs/pairs', 'const PARENT', 'parent: 0: the initial terms, else the pair and 1: Option<usize>'),
 ('prefixes/pattern', 'fn cut_pattern > x[w] = 255', 'bytes of patterns: 255 for the top: Option<u8>'),
 ('transducer/translate', 'fn emit > let mut keys', 'keys: 0: nothing noted: Option<Note>'),
 ('transducer/translate', 'fn fill > let mut places', 'places: 0: not in out: Option<usize>'),
 ('witness/witness', 'fn path_from > let mut dist', 'dist: 0: none: Option<u8>'),
 ('witness/witness', 'fn root_tree > let mut steps', 'steps: child 0: none: Option'),
 ('samples/main', 'fn run > let mut names', 'names: to <= from: no such name: Option'),
]
ONE_F = [  # numbers for kinds
 ('trees/refusal', 'fn number_of', '15 arms; enum Refusal with discriminants'),
 ('discovery/queue', 'const CALL', 'a letter below CALL is a symbol, CALL * i + c a call: enum Letter'),
 ('transducer/depth', 'fn children', 'a mark (i, x): i 0 a symbol, else a call; so read in 24 functions: enum Mark'),
 ('witness/witness', 'fn body_of', 'side: usize, LEFT or RIGHT'),
 ('samples/line', 'fn is_call', 'the k-th word of a list: enum Call'),
 ('samples/line', 'fn asked > let takes', 'files and numbers of a call as 10 * f + n, by call number'),
 ('samples/line', 'fn lent > match k', 'match over call numbers 8 to 14'),
 ('samples/line', 'fn answer_call > match k', 'match over call numbers 1 to 7'),
]
ONE_ABI = [  # not counted: the C interface allows numbers only
 ('exports/lib', 'fn caplune_is_linear', '1 or 0'),
 ('exports/lib', 'fn caplune_symbol_at', 'there and symbol'),
 ('exports/lib', 'fn caplune_compare', 'alike and four numbers'),
 ('exports/lib', 'fn caplune_shorter', '0, 1 or 2'),
 ('exports/registered', 'fn caplune_body', '0 and 0'),
]

def point1():
    print('## 1a own enums of the shape of Option or Result')
    es = shaped()
    for f, k, name, body in es:
        print('%s:%d: enum %s { %s }' % (f, k, name, ', '.join(body)))
    print('   = %d of %d enums' % (len(es), len(enums())))
    n = [len(es)]
    n.append(items('1b structs with a flag beside values', ONE_B))
    n.append(items('1c functions that answer a sentinel', ONE_C))
    n.append(items('1d an empty part for none', ONE_D))
    n.append(items('1e flags and none as numbers in a table', ONE_E))
    n.append(items('1f numbers for kinds and refusals', ONE_F))
    r = []
    for f in FILES:
        t = '\n'.join(code(l) for l in SRC[f])
        for m in re.finditer(r'(\w+)::(Refused|Over|Bad|Twice|Clash)(?:\([\w, ]+\))? => (?:\{\s*return )?\w+::(?:Refused|Over|Bad|Twice|Clash)\b', t):
            r.append((f, t[:m.start()].count('\n') + 1, SRC[f][t[:m.start()].count('\n')].strip()))
        for m in re.finditer(r'(\w+)::(Over|Bad|Twice) => (?:\{\s*return )?\w+::Refused\(Refusal::|CallsRead::Twice => \{\s*return false', t):
            k = t[:m.start()].count('\n') + 1
            if (f, k, SRC[f][k - 1].strip()) not in r:
                r.append((f, k, SRC[f][k - 1].strip()))
    print('## 1g arms that do by hand what `?` does, for the enums of 1a; not in the total')
    for x in sorted(r):
        print('%s:%d: %s' % x)
    print('   = %d' % len(r))
    print('(not counted: the C interface)')
    items('numbers by the C interface, not counted', ONE_ABI)
    return n

# ---------------------------------------------------------------- point 2

TWIN_TYPES = [
 ('one number, or refused', 'formats/file:FileRead formats/file:FileWritten records/book:Entered report/report:Reported transducer/translate:Translation xml/write:Converted'),
 ('two numbers, or refused', 'records/book:Reply trees/alphabet:AlphabetsRead trees/tree:TreeRead'),
 ('nothing, or refused', 'codes/symbol:CodesWritten records/book:Made records/book:Verdict'),
 ('one number, or none', 'forms/write:FormSize queries/linear:CallsRead records/book:Claim'),
 ('a count, or a clash with one, two, three numbers', 'pairs/pairs:Walked pairs/pairs:Stage pairs/pairs:Verdict'),
 ('pairs of numbers', 'merging/refining:Step transducer/translate:Emission trees/bytes:Span witness/other:PathEnd'),
 ('four numbers', 'witness/witness:Bottom witness/witness:Rooted witness/witness:Shown'),
 ('a span and more', 'witness/witness:Placed witness/witness:Traced'),
]
TWIN_FNS = [
 ('x as usize', 'discovery/queue:letter transducer/translate:long trees/bytes:number trees/bytes:wide'),
 ('min and max', 'pairs/pairs:smaller registry/lent:at_most_33 transducer/translate:near trees/bytes:larger'),
 ('the end of a tree of bytes or letters', 'earliest/expand:letter_end prefixes/pattern:pattern_end'),
 ('a right-hand side with the patterns put in', 'earliest/expand:expand prefixes/pattern:graft'),
 ('flags of the calls of a body', 'merging/refining:flag_calls prefixes/callers:flag_calls'),
 ('flags of the callers of all states', 'merging/refining:find_callers prefixes/callers:find_callers'),
 ('the initial term added', 'earliest/discover:add_initial join/discover:add_initial'),
 ('the right-hand sides of a state added', 'earliest/discover:add_state join/discover:add_state'),
 ('those of every state that is met', 'earliest/discover:add_states join/discover:add_states'),
 ('discovery', 'earliest/discover:discover join/discover:discover'),
 ('a joined right-hand side and the initial term', 'join/discover:join_rhs join/discover:join_initial'),
 ('the same, added', 'join/discover:add_rhs join/discover:add_initial'),
 ('a tree measured from the front', 'formats/bodies:measure_marks trees/tree:measure'),
 ('a tree measured from the back', 'formats/bodies:measure_body xml/measure:measure_output'),
 ('the ends of subtrees', 'runs/walk:note_ends transducer/children:fill_ends'),
 ('one put where there is room', 'runs/walk:put transducer/translate:put'),
 ('the number of a body', 'runs/walk:body_of transducer/translate:body_at witness/witness:body_of'),
 ('the children of a mark', 'transducer/depth:children witness/shown:mark_rank'),
 ('the first state of a class', 'merging/refining:find_placed merging/refining:find_member'),
 ('copies within a buffer', 'samples/reader:append transducer/translate:copy_within'),
 ('counts and marks of a file', 'formats/file:transducer_counts formats/file:transducer_marks'),
 ('the file of a form', 'canonical/normal:clean_file earliest/earliest:form_file'),
 ('an entry point that writes the file of a form', 'canonical/normal:clean earliest/earliest:earliest_form'),
 ('an entry point that reads one sheet: the prologue', 'canonical/normal:clean earliest/earliest:earliest_form queries/address:symbol_at queries/linear:is_linear transducer/translate:translate'),
 ('an entry point that reads two sheets: the prologue', 'comparison/compare:compare join/join:join_sheets'),
 ('the form of one side', 'comparison/compare:compare_parts comparison/compare:compare_with'),
 ('question and entry: survey, ask, find', 'registry/lent:enter registry/lent:question'),
 ('a refusal, and nothing changes', 'records/entry:refuse records/entry:refuse_early records/making:refuse'),
 ('joining behind and before', 'demands/lib:join_after demands/lib:join_before'),
 ('exported: three numbers of a form', 'exports/lib:caplune_earliest_form exports/lib:caplune_clean exports/lib:caplune_join'),
 ('exported: a length', 'exports/lib:caplune_write_transducer exports/lib:caplune_translate exports/lib:caplune_write_xml exports/lib:caplune_read_xml'),
 ('exported: two numbers', 'exports/lib:caplune_read_alphabets exports/lib:caplune_read_tree'),
 ('exported: an answer as a number', 'exports/registered:tell_made exports/registered:tell_entered exports/registered:tell_reply'),
 ('a tag written and compared', 'xml/tag:write_tag xml/tag:tag_stands'),
 ('a code written and compared', 'xml/tag:write_code xml/tag:code_stands'),
 ('a text written and compared', 'xml/write:put_xml xml/read:xml_stands'),
 ('an input read to its end', 'samples/main:read_text sheets/main:read_some'),
 ('parts between separators', 'samples/main:run samples/reader:put_items samples/reader:put_file'),
 ('samples: a length printed', 'samples/calls:writing samples/calls:sewing samples/calls:xml samples/calls:plan'),
 ('samples: two numbers printed', 'samples/calls:stock samples/calls:design'),
]

def grep(pattern, comments=False):
    r = []
    for f in FILES:
        for k, l in enumerate(SRC[f]):
            t = l if comments else code(l)
            if re.match(r'\s*(requires|ensures|ghost)\b', t):
                continue
            c = len(re.findall(pattern, t))
            if c:
                r.append((f, k + 1, l.strip(), c))
    return r

EXPR = [
 ('the number of a body, 1 + q * inputs + a, computed', r'(?<!\w)(?<!m = )(?<!bodies = )1 \+ (?:pair_byte\([^)]*\)|[pqkxy]) \* (?:ins\.len\(\)|inputs|symbols|input_ranks\(stock\)\.len\(\))'),
 ('the number of bodies, 1 + n * inputs, computed', r'(?<!\w)(?:1 \+ (?:n|n1|n2) \* (?:ins|inputs|input_ranks)|3 \+ 2 \* \(n \* ins|2 \+ 2 \* \(n \* input_ranks|(?<=m = )1 \+ k \* input_ranks|(?<=bodies = )1 \+ k \* input_ranks)'),
 ('a start read from a table: number(starts[..])', r'number\(starts[12]?\['),
 ('a mark, or its half, read from two bytes', r'(?:marks[12]?|(?<!\w)s)\[2 \* [^\]]*\]|(?<!\w)marks\[at(?: \+ 1)?\]'),
 ('an unused record written out: size 0', r'^\s*size: 0,$'),
 ('a count of two bytes read: 256 * .. + ..', r'256 \* wide\(counts'),
]

def group(title, kind, table):
    print('## ' + title)
    n = members = 0
    for name, ms in table:
        got = []
        for m in ms.split():
            short, x = m.split(':')
            k = find(short, kind + ' ' + x) if kind == 'fn' else (find(short, 'enum ' + x) if find(short, 'enum ' + x) is not None else find(short, 'struct ' + x))
            if k is None:
                print('GONE %s: %s' % (path(short), x))
            else:
                got.append('%s:%d: %s' % (path(short), k + 1, x))
        if len(got) >= 2:
            n += 1
            members += len(got)
            print('[%s]' % name)
            for g in got:
                print('    ' + g)
    print('   = %d groups with %d members' % (n, members))
    return n, members

def point2():
    a = group('2a types', 'type', TWIN_TYPES)
    b = group('2b functions', 'fn', TWIN_FNS)
    n = []
    for name, p in EXPR:
        if name.startswith('an unused'):
            r = [x for x in grep(p) if 'start: 0' in SRC[x[0]][x[1] - 2] and 'count: 0' in SRC[x[0]][x[1]]]
        else:
            r = grep(p)
        print('## 2c %s' % name)
        for f, k, l, c in r:
            print('%s:%d: %s' % (f, k, l))
        print('   = %d places on %d lines' % (sum(c for *_, c in r), len(r)))
        n.append(sum(c for *_, c in r))
    return a, b, n

# ---------------------------------------------------------------- point 3

# Loops that are not a plain `for` in Rust: (function, why). All others step an index or a count over a range.
NOT_FOR = {
 ('earliest/discover', 'add_states'): 'W the bound grows',
 ('join/discover', 'add_states'): 'W the bound grows',
 ('pairs/pairs', 'walk_pairs'): 'W the bound grows',
 ('queries/linear', 'read_reached'): 'W the bound grows',
 ('earliest/expand', 'letter_end'): 'W a count of what is owed',
 ('prefixes/pattern', 'pattern_end'): 'W a count of what is owed',
 ('prefixes/pattern', 'cut_pattern'): 'W three indices, by runs',
 ('queries/address', 'follow'): 'W an index, and the marks by calls',
 ('samples/main', 'run'): 'W from separator to separator',
 ('samples/reader', 'put_items'): 'W from separator to separator',
 ('samples/reader', 'put_file'): 'W from separator to separator',
 ('samples/main', 'read_text'): 'W by what a read gives',
 ('sheets/main', 'read_some'): 'W by what a read gives',
 ('xml/read', 'xml_stands'): 'W tag by tag',
 ('xml/write', 'put_xml'): 'W tag by tag',
 ('merging/refining', 'refine_more'): 'N until no state is moved',
 ('prefixes/prefix', 'follow'): 'N by the flags',
 ('prefixes/prefix', 'settle'): 'N until nothing is cut',
 ('witness/other', 'fill_distances'): 'N until none is found',
 ('witness/witness', 'trace_back'): 'N from parent to parent',
}

def point3():
    total = {'F': 0, 'W': 0, 'N': 0}
    print('## 3 loops: F a plain for in Rust, W an index or a count stepped by hand but no plain for, N no index')
    for f in FILES:
        fn = ''
        for k, l in enumerate(SRC[f]):
            m = re.search(r'\bfn (\w+)', code(l))
            if m:
                fn = m.group(1)
            if re.match(r'\s*(while|loop)\b', code(l)):
                short = f.replace('crates/', '').replace('/src', '').replace('.rt', '')
                why = NOT_FOR.get((short, fn), 'F')
                total[why[0]] += 1
                print('%s:%d: %s in %s: %s' % (f, k + 1, why[0], fn, l.strip() + ('   -- ' + why[2:] if why[2:] else '')))
    fors = len(grep(r'^\s*for '))
    print('   = %d loops: F %d, W %d, N %d; stepped by hand (F + W) %d; `for` loops %d' % (sum(total.values()), total['F'], total['W'], total['N'], total['F'] + total['W'], fors))
    return total

# ---------------------------------------------------------------- point 4

FOUR = [
 ('equality', [
  ('trees/bytes', 'fn same_bytes', '== of slices'),
  ('xml/tag', 'fn stands', 'starts_with'),
  ('prefixes/pattern', 'fn same_word', 'eight bytes: == of slices'),
  ('prefixes/pattern', 'fn same_words', 'chunks that are equal'),
  ('prefixes/pattern', 'fn same_run', 'zip and position'),
  ('records/chain', 'fn is_unused', 'derive PartialEq'),
 ]),
 ('order', [
  ('trees/bytes', 'fn larger', 'max'),
  ('pairs/pairs', 'fn smaller', 'min'),
  ('registry/lent', 'fn at_most_33', 'min(33)'),
  ('transducer/translate', 'fn near', 'min(u32::MAX)'),
  ('transducer/translate', 'fn deeper', 'max and min(257)'),
  ('merging/refining', 'fn callers_end', 'min(n)'),
  ('prefixes/pattern', 'fn same_run > let mut n = x.len() - i', 'min of two lengths'),
 ]),
 ('sums that stop', [
  ('records/chain', 'fn plus', 'saturating_add'),
  ('transducer/translate', 'fn added', 'min(limit + 1)'),
  ('samples/reader', 'fn with_digit', 'checked_mul and checked_add'),
 ]),
 ('copying', [
  ('formats/file', 'fn copy_at', 'copy_from_slice'),
  ('formats/file', 'fn write_word', 'copy_from_slice, and on'),
  ('transducer/translate', 'fn copy_within', 'copy_within'),
  ('samples/reader', 'fn append', 'copy within a buffer'),
  ('witness/shown', 'fn fill', 'fill'),
  ('merging/refining', 'fn all_pending', 'fill'),
  ('records/entry', 'fn count_answer', 'struct update ..h'),
  ('records/entry', 'fn count', 'struct update ..r'),
  ('prefixes/callers', 'fn other_flags', 'struct update ..flags'),
  ('prefixes/callers', 'fn more_flags', 'struct update ..flags'),
 ]),
 ('conversion', [
  ('trees/bytes', 'fn wide', 'usize::from'),
  ('trees/bytes', 'fn number', 'usize::from'),
  ('discovery/queue', 'fn letter', 'x as usize'),
  ('transducer/translate', 'fn long', 'x as usize'),
  ('trees/refusal', 'fn number_of', 'discriminants'),
  ('formats/bodies', 'fn counts_right > 256 * wide', 'u16::from_be_bytes'),
  ('formats/bodies', 'fn fill_starts > 256 * wide', 'u16::from_be_bytes'),
  ('forms/write', 'fn fill_counts', 'to_be_bytes'),
  ('xml/read', 'fn byte_at', 'get'),
  ('samples/reader', 'fn between', 'get'),
  ('exports/registered', 'fn record_at', 'get'),
 ]),
 ('reading and printing', [
  ('report/text', 'fn write_number', 'decimal, write!'),
  ('report/text', 'fn write_separated', 'numbers with a separator'),
  ('report/text', 'fn write_address', 'the same'),
  ('report/text', 'fn write_symbol', 'write!'),
  ('report/text', 'fn write_refused', 'write!'),
  ('report/text', 'fn write_sizes', 'write!'),
  ('report/text', 'fn write_alike', 'write!'),
  ('report/text', 'fn write_differ', 'write!'),
  ('codes/symbol', 'const CODES', '64 codes written out: [b\'A\' + k / 8, b\'1\' + k % 8]'),
  ('codes/symbol', 'fn symbol_of', 'a search for what the two bytes tell'),
  ('samples/reader', 'fn find', 'position'),
  ('samples/reader', 'fn nth', 'split and nth'),
  ('samples/reader', 'fn count', 'filter and count'),
  ('samples/reader', 'fn number', 'parse'),
  ('samples/reader', 'fn put_items', 'split'),
  ('samples/reader', 'fn put_file', 'split'),
  ('samples/main', 'fn run', 'lines'),
  ('samples/answer', 'fn number', 'println!'),
  ('samples/answer', 'fn one', 'println!'),
  ('samples/answer', 'fn two', 'println!'),
  ('samples/answer', 'fn refusal', 'Display of Refusal'),
  ('samples/answer', 'fn refused', 'println!'),
 ]),
]

def point4():
    return [(name, items('4 ' + name, t)) for name, t in FOUR]

# ---------------------------------------------------------------- point 5

def functions():
    """(file, line, name, [parameter names], [clauses])"""
    out = []
    for f in FILES:
        text = '\n'.join(code(l) for l in SRC[f])
        for m in re.finditer(r'^[^\n]*?\bfn (\w+)(?:<[^>]*>)?\(', text, re.M):
            i = m.end()
            d = 1
            while d:
                d += {'(': 1, ')': -1}.get(text[i], 0)
                i += 1
            params = text[m.end():i - 1]
            ps = re.findall(r'(\w+):\s*[^,\[\(]*(?:\[[^\]]*\])?', params)
            # clauses up to the body: the first line that is `{` or ends with ` {` and is no clause
            tail = text[i:]
            cl = []
            for l in tail.split('\n'):
                s = l.strip()
                c = re.match(r'(requires|ensures)(?: \w+)? \{ (.*) \}$', s)
                if c:
                    cl.append(c.group(2))
                elif s == '{' or (s.endswith('{') and s != ''):
                    break
            atoms = set()
            for c in cl:
                d = 0
                cur = ''
                for ch in c:
                    if ch in '(':
                        d += 1
                    if ch in ')':
                        d -= 1
                    if ch == '×' and d == 0:
                        atoms.add(cur)
                        cur = ''
                    else:
                        cur += ch
                atoms.add(cur)
            norm = set()
            for a in atoms:
                a = re.sub(r'\.(old|new|now)\b', '', a).strip()
                while a.startswith('(') and a.endswith(')') and balanced(a[1:-1]):
                    a = a[1:-1].strip()
                if a:
                    norm.add(re.sub(r'\s+', ' ', a))
            out.append((f, text[:m.start(1)].count('\n') + 1, m.group(1), ps, norm))
    return out

def balanced(s):
    d = 0
    for ch in s:
        d += {'(': 1, ')': -1}.get(ch, 0)
        if d < 0:
            return False
    return d == 0

def point5():
    fs = functions()
    facts = {}
    for f, k, name, ps, atoms in fs:
        for a in atoms:
            facts.setdefault(a, set()).add((f, k, name))
    print('## 5a clauses that stand in the contracts of three or more functions (.old, .new, .now dropped)')
    n = 0
    for a, where in sorted(facts.items(), key=lambda x: (-len(x[1]), x[0])):
        if len(where) >= 3 and not re.search(r'\bresult\b', a):
            n += 1
            print('%2d  %s' % (len(where), a))
            for f, k, name in sorted(where):
                print('        %s:%d: %s' % (f, k, name))
    print('   = %d' % n)
    print('## 5b three or more parameters in a row that three or more functions share, the longest of each set of functions')
    runs = {}
    for f, k, name, ps, atoms in fs:
        for i in range(len(ps)):
            for j in range(i + 3, len(ps) + 1):
                runs.setdefault(tuple(ps[i:j]), set()).add((f, k, name))
    closed = []
    for r, where in runs.items():
        if len(where) < 3:
            continue
        bigger = any(len(q) > len(r) and runs[q] == where and any(q[i:i + len(r)] == r for i in range(len(q) - len(r) + 1)) for q in runs)
        if not bigger:
            closed.append((r, where))
    for r, where in sorted(closed, key=lambda x: (-len(x[1]), x[0])):
        print('%2d  %s' % (len(where), ', '.join(r)))
    print('   = %d' % len(closed))
    g = items_groups(fs)
    return n, len(closed), g

# Parameters that are one thing: (name of the thing, its parameters, which stand in a row)
GROUPS = [
 ('a form: where the bodies start, and the marks', ['starts', 'marks']),
 ('the first of two forms', ['starts1', 'marks1']),
 ('the second of two forms', ['starts2', 'marks2']),
 ('a transducer over ranks', ['ins', 'starts', 'marks']),
 ('a transducer over two alphabets', ['ins', 'outs', 'starts', 'marks']),
 ('a transducer with its common prefixes', ['starts', 'marks', 'heads', 'sizes']),
 ('two transducers', ['starts1', 'marks1', 'starts2', 'marks2']),
 ('two transducers with their sizes', ['starts1', 'marks1', 'n1', 'starts2', 'marks2', 'n2']),
 ('the parts of a file', ['n', 'counts', 'marks']),
 ('the queue of states', ['list', 'place', 'met']),
 ('the form that is made, first name', ['starts2', 'out']),
 ('the form that is made, other name', ['starts', 'out']),
 ('refinement', ['pending', 'reps', 'list']),
 ('refinement: old and new classes', ['old', 'new']),
 ('the pair search', ['classes1', 'classes2', 'pairs']),
 ('a tree in a buffer', ['buffer', 'lo', 'hi']),
 ('an address in a buffer', ['place', 'at']),
 ('distances', ['dist', 'q']),
 ('the notes of a translation', ['keys', 'sizes', 'places']),
 ('what a translation reads', ['ins', 'starts', 'marks', 'depths', 's', 'ends']),
 ('what a run reads', ['starts', 'marks', 's', 'ends']),
 ('open nodes', ['opened', 'wanted']),
 ('a walk over a tree', ['at', 'depth', 'opened', 'wanted']),
 ('text and position', ['text', 'at']),
 ('marks of a body', ['marks', 'from', 'to']),
 ('the registry, lent', ['head', 'records', 'area']),
 ('an entry asked for and found', ['a', 'f', 'area', 'bytes']),
 ('the store of samples', ['store', 'names']),
]

def items_groups(fs):
    print('## 5c groups of three or more parameters that are one thing, in a row in three or more functions')
    n = 0
    for what, ps in GROUPS:
        if len(ps) < 3:
            continue
        where = [(f, k, name) for f, k, name, q, _ in fs if any(q[i:i + len(ps)] == ps for i in range(len(q)))]
        if len(where) >= 3:
            n += 1
            print('%2d  %s: %s' % (len(where), what, ', '.join(ps)))
            for f, k, name in where:
                print('        %s:%d: %s' % (f, k, name))
    print('   = %d' % n)
    print('## 5d groups of two, likewise')
    m = 0
    for what, ps in GROUPS:
        where = [x for x in fs if any(x[3][i:i + len(ps)] == ps for i in range(len(x[3])))]
        if len(ps) == 2 and len(where) >= 3:
            m += 1
            print('%2d  %s: %s' % (len(where), what, ', '.join(ps)))
    print('   = %d' % m)
    return n, m

# ---------------------------------------------------------------- point 6

SIX = [
 ('buffers with a length beside them', [
  ('discovery/queue', 'fn enter', 'list and met'),
  ('merging/refining', 'fn refine_round', 'list and len'),
  ('merging/refining', 'fn flag_moved', 'moved and m'),
  ('classes/classes', 'fn number_classes', 'least and count'),
  ('pairs/pairs', 'fn add_pair', 'pairs and count'),
  ('prefixes/pattern', 'fn graft', 'out and w'),
  ('earliest/expand', 'fn expand', 'letters and w'),
  ('runs/walk', 'fn walk', 'letters and w'),
  ('transducer/translate', 'fn walk', 'out and w'),
  ('transducer/depth', 'fn close', 'owed and d, a stack'),
  ('formats/bodies', 'fn measure_body', 'levels and behind, a stack'),
  ('xml/measure', 'fn measure_output', 'levels and behind, a stack'),
  ('xml/walk', 'fn next_tag', 'opened, wanted and depth, a stack'),
  ('xml/read', 'fn collect', 'table and n'),
  ('witness/shown', 'fn write_steps', 'steps and count; buffer with from and to'),
  ('witness/shown', 'fn write_address', 'place and at, from the end'),
  ('formats/file', 'fn write_word', 'text and at'),
  ('join/stock', 'fn join_stocks', 'area and its size'),
  ('records/entry', 'fn ask', 'file and size'),
  ('samples/reader', 'fn append', 'store and end'),
  ('prefixes/prefix', 'fn cut_by', 'heads in slots of 64, and sizes'),
 ]),
 ('parallel arrays', [
  ('transducer/translate', 'fn fill > let mut places', 'keys, sizes and places'),
  ('transducer/translate', 'fn translate_by > let mut depths', 'depths beside marks'),
  ('earliest/discover', 'fn form_of_table > let mut heads', 'heads and sizes'),
  ('merging/refining', 'fn refine_classes > let mut pending', 'pending and the classes, by state'),
  ('discovery/queue', 'fn enter', 'list and place, one the inverse of the other'),
  ('xml/write', 'fn put_xml > let mut opened', 'opened and wanted (and again in xml_stands)'),
 ]),
 ('records in an array of numbers, by hand', [
  ('pairs/pairs', 'const PAIR', 'six bytes a pair: LEFT .. CHILD'),
  ('merging/refining', 'const ROW', '130 bytes a state: flags, FIRST, LAST'),
  ('prefixes/callers', 'fn find_callers', 'two words a state: 2 * q + word'),
  ('prefixes/callers', 'struct Flags', 'two words a set of 128'),
  ('prefixes/pattern', 'const SLOT', '64 bytes a state'),
  ('witness/other', 'fn put_step', 'two bytes a step'),
  ('samples/line', 'fn name', 'from and to by 2 * k'),
  ('transducer/translate', 'fn noted', 'key and levels in one number, 512 * key + levels'),
  ('transducer/translate', 'fn note_key', 'state and place in one number, 4096 * (q + 1) + p'),
  ('runs/walk', 'const PAIR', 'two states in one number, 128 * x + p'),
  ('samples/line', 'fn asked > let takes', 'two digits in one number'),
 ]),
 ('searched by hand', [
  ('codes/symbol', 'fn symbol_of', 'the table of codes, which is sorted'),
  ('samples/line', 'fn call_number', 'the words of the calls'),
  ('registry/lent', 'fn find', 'the bodies, by bytes'),
 ]),
 ('arenas of indices', [
  ('pairs/pairs', 'const PARENT', 'pairs point to their parent'),
  ('transducer/children', 'fn fill_ends', 'ends: the node behind a subtree'),
  ('records/book', 'struct Record', 'start and size in the area'),
  ('samples/line', 'fn name', 'from and to in the store'),
 ]),
]

def point6():
    return [(name, items('6 ' + name, t)) for name, t in SIX]

# ---------------------------------------------------------------- point 7

SEVEN = [
 ('samples/line', 'fn answer_call > match k', 'which call to run, by number'),
 ('samples/line', 'fn lent > match k', 'which call to run, by number'),
]

def point7():
    n = items('7 a switch on which step to run', SEVEN)
    fp = grep(r': (?:&dyn |Box<dyn |fn\()')
    print('   tables of functions, fn pointers, dyn: %d' % len(fp))
    return n

if __name__ == '__main__':
    import io, contextlib
    which = sys.argv[1] if len(sys.argv) > 1 else ''
    run = {'1': point1, '2': point2, '3': point3, '4': point4, '5': point5, '6': point6, '7': point7}
    if which:
        r = run[which]()
        print('TOTAL', r, sum(r) if which == '1' else '')
    else:
        for k in sorted(run):
            with contextlib.redirect_stdout(io.StringIO()):
                r = run[k]()
            print(k, r, sum(r) if k == '1' else '')
