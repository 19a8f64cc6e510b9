#!/usr/bin/env python3
"""Counts, at the top of a checkout, the places of each point of docs/DESIGN-PASS.md in crates/*/src.

    python3 tools/design_count.py                 the number of places of each kind
    python3 tools/design_count.py --list [KIND]   each place too, as crate/src/file:line: text
    python3 tools/design_count.py --other         the same points counted in another way: by lines that show traces of such places
It reads text and proves nothing. Where a rule finds more than the point means, the page says what."""
import collections, difflib, glob, re, sys

FILES = sorted(glob.glob('crates/*/src/*.rt'))
Fn = collections.namedtuple('Fn', 'at name params ret requires ensures body line')
Enum, Struct = collections.namedtuple('Enum', 'at name variants'), collections.namedtuple('Struct', 'at name fields')

def end_of(t, i):
    """The place after the bracket that closes the one at i."""
    depth = 0
    for j in range(i, len(t)):
        depth += (t[j] in '({[') - (t[j] in ')}]')
        if depth == 0:
            return j + 1
    return len(t)

def cut(t, mark=',', opening='({[<', closing=')}]>'):
    """Parts between the marks that stand in no bracket."""
    parts, depth = [''], 0
    for i, c in enumerate(t):
        depth += (c in opening) - (c in closing and t[i - 1:i + 1] not in ('->', '=>'))
        parts = parts + [''] if c == mark and depth == 0 else parts[:-1] + [parts[-1] + c]
    return [p.strip() for p in parts if p.strip()]

def facts(clause):
    """The conjuncts of a clause, without needless brackets and blanks."""
    clause = ' '.join(clause.split())
    while clause.startswith('(') and end_of(clause, 0) == len(clause):
        clause = clause[1:-1]
    parts = cut(clause, '×', '({[', ')}]')
    return parts if len(parts) == 1 else [f for p in parts for f in facts(p)]

def read(path):
    t = re.sub(r'//[^\n]*', '', open(path, encoding='utf-8').read())
    where = lambda i: (path.replace('crates/', '', 1), t.count('\n', 0, i) + 1)
    for m in re.finditer(r'\b(enum|struct|fn) (\w+)', t):
        i = m.end()
        if m[1] != 'fn':
            open_at = min([k for k in (t.find('{', i), t.find('(', i), t.find(';', i)) if k >= 0])
            inside = t[open_at + 1:end_of(t, open_at) - 1] if t[open_at] != ';' else ''
            if m[1] == 'enum':
                yield Enum(where(m.start()), m[2], [re.match(r'(?:#\[.*?\]\s*)*(\w+)\s*(.*)', p, re.S).groups() for p in cut(inside)])
            elif t[open_at] == '{':
                yield Struct(where(m.start()), m[2], [tuple(x.strip() for x in re.sub(r'^pub\s+', '', p).split(':', 1)) for p in cut(inside)])
            continue
        j = end_of(t, i := t.index('(', i))
        params = [(a.strip(), b.strip()) for a, _, b in (re.sub(r'^mut ', '', p).partition(':') for p in cut(t[i + 1:j - 1]))]
        clauses, head = {'requires': [], 'ensures': []}, re.compile(r'\s*(requires|ensures)(\s+\w+)?\s*\{')
        ret = re.match(r'\s*(->\s*[^{]*?)?(?=\s*(requires|ensures|\{))', t[j:])
        j += ret.end()
        while (c := head.match(t, j)):
            k = end_of(t, c.end() - 1)
            clauses[c[1]].append(t[c.end():(j := k) - 1].strip())
        b = t.index('{', j)
        yield Fn(where(m.start()), m[2], params, (ret[1] or '').replace('->', '').strip(), clauses['requires'], clauses['ensures'], t[b:end_of(t, b)], where(b)[1])

FNS, ENUMS, STRUCTS = ([x for f in FILES for x in read(f) if isinstance(x, sort)] for sort in (Fn, Enum, Struct))
named = lambda f: f.at[0].split('/')[0] + '::' + f.name
REFUSING = r'^(Refused|Malformed|Broken|Failed|Unknown|Wrong|Closed|Long|TooMany|Full)$'

def lines(pattern, skip=r'^\s*//|^ghost use|^use '):
    for f in FILES:
        for n, line in enumerate(open(f, encoding='utf-8'), 1):
            if re.search(pattern, line) and not re.search(skip, line):
                yield (f.replace('crates/', '', 1), n), line.strip()

# ---- 1. own Option and Result, flags beside values, numbers for refusals and kinds
def own_enums():
    for e in ENUMS:
        empty = [v for v, p in e.variants if not p]
        full = [v for v, p in e.variants if p]
        same = len(e.variants) == 2 and not empty and len({p for _, p in e.variants}) == 1
        if full and (empty or same or any(re.match(REFUSING, v) for v in full)):
            shape = 'Option' if len(full) == 1 == len(empty) and not re.match(REFUSING, empty[0]) else 'Result' if len(e.variants) == 2 else 'three or more'
            yield e.at, f'{e.name} ({shape}): ' + ', '.join(v + p for v, p in e.variants)
        elif not full and len(e.variants) > 1 and any(re.match(REFUSING, v) for v in empty):
            yield e.at, f'{e.name} (two words): ' + ', '.join(empty)

def flags():
    for s in STRUCTS:
        flag = [f for f in s.fields if f[1] == 'bool' or f[0] in ('refusal', 'failed', 'outcome')]
        if flag and len(s.fields) > 1:
            yield s.at, f'{s.name}: flag ' + ', '.join(a for a, _ in flag) + '; beside ' + ', '.join(a for a, b in s.fields if (a, b) not in flag)

def refusal_numbers():
    for f in FNS:
        if f.ret in ('u64', 'usize') and ('refusal' in f.name or any(re.search(r'result ≡ (\(?refusal|first_refusal)', c) for c in f.ensures) or re.search(r'early != 0|refusal != 0|broken != 0', f.body)):
            yield f.at, f'fn {f.name} answers a refusal number'

def kind_numbers():
    for f in FNS:
        named = [a for a, b in f.params if b in ('u64', 'u8', 'usize') and re.match(r'(kind|lane|tag|mode|status|form|code)$', a)]
        if named or (f.ret in ('u64', 'u8', 'usize') and re.search(r'(^|_)(kind|tag|mode|status)(_|$)|reading_byte', f.name)):
            yield f.at, f'fn {f.name}: a number for a kind: ' + (', '.join(named) or 'its answer')

# ---- 2. twins
raw = lambda body: re.findall(r'\w+|[^\w\s]', body)
KEEP = set('if else while loop match return let mut for in as true false break continue'.split())
shape = lambda body: [w if w in KEEP or not re.match(r'\w', w) else '0' if w[0].isdigit() else 'x' for w in raw(body)]

def twins():
    """Groups of functions whose bodies are alike once names and numbers are taken away, and hardly differ in words; short ones wholly alike."""
    some = [(f, shape(f.body), raw(f.body)) for f in FNS if len(raw(f.body)) >= 14 and 'main.rt' not in f.at[0] and not f.name.startswith('claim')]
    group = list(range(len(some)))
    find = lambda i: i if group[i] == i else find(group[i])
    matcher = lambda a, b: difflib.SequenceMatcher(None, a, b, False)
    for i, (f, a, ra) in enumerate(some):
        for j, (g, b, rb) in enumerate(some[:i]):
            if not 0.75 <= len(a) / len(b) <= 1.34 or abs(len(f.params) - len(g.params)) > 1 or (f.ret == '') != (g.ret == ''):
                continue
            short = min(len(ra), len(rb)) < 25
            if short and a == b and (f.name == g.name or matcher(ra, rb).ratio() >= 0.8) or not short and \
                    matcher(a, b).quick_ratio() >= 0.9 and matcher(a, b).ratio() >= 0.9 and matcher(ra, rb).ratio() >= 0.7:
                group[find(i)] = find(j)
    sets = [[x[0] for i, x in enumerate(some) if find(i) == k] for k in range(len(some))]
    for n, s in enumerate((s for s in sets if len(s) > 1), 1):
        yield from ((f.at, f'group {n}: fn {f.name}') for f in s)

# ---- 3. loops
def outer(block):
    """What of a block stands in no inner block."""
    return block if '{' not in block else outer(re.sub(r'\{[^{}]*\}', '', block))

def loops():
    for f in FNS:
        for m in re.finditer(r'\b(while\s+([^{]*?)|loop)\s*\{', f.body):
            block = f.body[m.end():end_of(f.body, m.end() - 1) - 1]
            cond = (m[2] or '').strip()
            names = re.findall(r'[a-z_]\w*', re.sub(r'\.\w+|\w+::', '', cond))
            steps = lambda n, b: re.findall(r'(?<![\w.])' + n + r'\s*([-+]?=)(?!=)\s*([^;]*);', b)
            one = lambda n, s: s in (('+=', '1'), ('-=', '1'), ('=', n + ' + 1'), ('=', n + ' - 1'))
            by_one = [n for n in names if len(steps(n, block)) == 1 and one(n, (steps(n, outer(block)) or [0])[0])]
            sort = ('halving' if re.search(r'low < high|half', cond) or re.search(r'= [^;]*(low|left)[^;]*/ 2', block) else 'loop' if not cond
                    else 'by one' if by_one else 'statements' if 'cursor.index' in cond else 'cursor')
            early = ', leaves early' if sort == 'by one' and re.search(r'\breturn\b|\bbreak\b', block) else ''
            yield (f.at[0], f.line + f.body.count('\n', 0, m.start())), f'{sort}{early}: fn {f.name}: ' + (f'while {cond}' if cond else 'loop')

# ---- 4. equality, order, copying, conversion, printing
def sort_by_hand(f):
    crate, body, lent = f.at[0].split('/')[0], ' '.join(f.body.split()), any('&mut [' in b for _, b in f.params)
    if f.ret == 'Ordering' or (f.ret == 'bool' and re.search(r'(^|_)(same|equals?|alike|before|after|follows)(_|$)', f.name) and re.search(r'compare|before\(|==|!=|<', body)):
        return 'order' if f.ret == 'Ordering' or re.search('before|after|follows', f.name) else 'equality'
    if lent and re.search(r'(^|_)(copy|clear|fill|move_up|put_in_front)($|_(to|on|row|words|front)$)', f.name):
        return 'copying'
    if re.match(r'(put|print|show)_|hex_digit', f.name) and re.match(r'listing|cards|rust_sample', crate):
        return 'printing'
    if re.match(r'(read_|write_)(high_)?u(16|32|64)$|(read|write)_(digest|reference|locator|range|stretch|run)$|(words|bytes)_of$|(word_at|last_word|turned)$', f.name):
        return 'bytes'
    if shape(f.body) == '{ if x < x { return x ; } x }'.split():
        return 'the lesser of two'
    if f.ret and f.params and f.params[0][1] != f.ret and (len(f.params) == 1 or f.ret == 'u64') and len(body) < 420 and \
            re.match(r'\{ (match \w+ \{|if let|if \w+ \{ return [01]; \} [01] )', body):
        return 'conversion'

def by_hand():
    yield from ((f.at, f'{sort_by_hand(f)}: fn {f.name}') for f in FNS if sort_by_hand(f))
    yield from ((e.at, 'order: enum Ordering') for e in ENUMS if e.name == 'Ordering')

# ---- 5. facts and parameters that travel together
def together(pairs):
    """What the pairs with one key have, most first."""
    uses = collections.defaultdict(list)
    for key, x in pairs:
        uses[key].append(x)
    return sorted(uses.items(), key=lambda x: (-len(x[1]), x[0]))

def repeated_facts():
    for fact, fs in together((fact, f) for f in FNS for fact in sorted({x for c in f.requires for x in facts(c)})):
        if len(fs) >= 3:
            yield fs[0].at, f'{len(fs)} times, {len({f.at[0] for f in fs})} files: {fact}   [' + ', '.join(map(named, fs)) + ']'

def travelling():
    runs = collections.defaultdict(set)
    for f in FNS:
        for n in range(3, len(f.params) + 1):
            for i in range(len(f.params) - n + 1):
                runs[tuple(f.params[i:i + n])].add(f.at + (f.name,))
    big = {r: s for r, s in sorted(runs.items(), key=lambda x: (-len(x[1]), x[0])) if len(s) >= 3}
    for r, s in big.items():
        if not any(len(q) > len(r) and big[q] == s and any(q[k:k + len(r)] == r for k in range(len(q))) for q in big):
            yield min(s)[:2], f'{len(s)} functions: ' + ', '.join(': '.join(p) for p in r) + '   [' + ', '.join(f'{a.split("/")[0]}::{n}' for a, _, n in sorted(s)) + ']'

# ---- 6. buffers and lengths, parallel arrays, searches, arenas
def lengths_beside():
    for f in FNS:
        slices = [a for a, b in f.params if re.search(r'\[[^;]*\]$', b)]
        for n in [a for a, b in f.params if b in ('usize', 'u64') and a in ('n', 'm', 'count', 'used', 'most', 'len', 'size')]:
            hit = [s for s in slices for c in f.requires for x in facts(c) if re.search(rf'\b{n}\b.*[≤≡<].*length {s}\b|length {s}\b.*[≤≡<].*\b{n}\b', x)]
            if hit or (n in ('n', 'count', 'used') and slices):
                yield f.at, f'fn {f.name}: {n} beside ' + ', '.join(dict.fromkeys(hit or slices)); break

def parallel():
    for f in FNS:
        for x in [x for c in f.requires for x in facts(c)]:
            if re.match(r'length (\w+)\.(now|old) [≡≤] (\d+ \* )?length (?!\1)\w+\.(now|old)$', x):
                yield f.at, f'fn {f.name}: {x}'; break

# ---- 7. switches
STEPS = ('Reading', 'FinalList', 'RangeKind', 'Speech', 'Side', 'Wanted')
def switches():
    for f in FNS:
        on = sorted(set(re.findall(r'\b(' + '|'.join(STEPS) + r')::\w+\s*(?:=>|\||=\s)', f.body)))
        flags = [a for a, b in f.params if b == 'bool' and re.search(r'\bif !?' + a + r'\b|\b' + a + r' (&&|\|\|)|(&&|\|\|) !?' + a + r'\b', f.body)]
        asked = re.findall(r'\b(wants_\w+|is_rejects|is_shares)\(', f.body)
        if on or flags or asked:
            yield f.at, f'fn {f.name} chooses by ' + ', '.join(on + ['bool ' + a for a in flags] + sorted(set(asked)))

def passed_on():
    for f in FNS:
        if (of := [b for _, b in f.params if b in STEPS]) and not re.search(r'\b(' + '|'.join(STEPS) + r')::\w+\s*(?:=>|=\s)', f.body):
            yield f.at, f'fn {f.name} passes ' + ', '.join(of) + ' on'

# ---- 8. proofs, roughly
def like_answers():
    """Answers, without their names, that three or more functions have."""
    files = sorted(glob.glob('crates/*/proofs/**/Answers.antt', recursive=True))
    blocks = ((f[7:], *b.partition('\n')[::2]) for f in files for b in re.split(r'\n(?=pub )', open(f, encoding='utf-8').read())[1:])
    for rest, fs in together((' '.join(rest.replace(head.split()[1], '', 1).split()), f) for f, head, rest in blocks):
        if len(set(fs)) >= 3 and rest:
            yield (fs[0], 1), f'{len(fs)} answers in {len(set(fs))} functions: {rest[:160]}'

def like_lemmas():
    found = ((f[7:], m) for f in sorted(glob.glob('crates/*/proofs/*.antt'))
             for m in re.finditer(r'(?m)^(?:pub )?(\S+) : (.+(?:\n[ \t]+.+)*)', open(f, encoding='utf-8').read()))
    for text, fs in together((' '.join(m[2].split()), (f, m[1])) for f, m in found):
        if len({f for f, _ in fs}) >= 2 and len(text) > 30:
            yield (fs[0][0], 1), f'{len(fs)} lemmas of one statement: {text[:140]}   [' + ', '.join(f'{f}:{n}' for f, n in fs) + ']'

only = lambda word: lambda: (p for p in loops() if p[1].startswith(word))
KINDS = [('1a own enums', own_enums), ('1b flags beside values', flags), ('1c functions answering a refusal number', refusal_numbers),
         ('1d enums with Refused(u64)', lambda: ((e.at, f'{e.name}::{v}') for e in ENUMS for v, p in e.variants if p == '(u64)' and re.match('Refused|Broken', v))), ('1e REFUSED + n', lambda: lines(r'REFUSED \+')), ('1f numbers for kinds', kind_numbers),
         ('1g Result with a number as error', lambda: lines(r'Result<[^;{]*, (u8|u64|usize)>')),
         ('2 twins', twins), ('3 loops', loops), ('3a loops by one', only('by one')), ('3b walks of statements', only('statements')),
         ('3c other cursors', only('cursor')), ('3d loop without a condition', only('loop')), ('3e searches by halving', only('halving')), ('4 by hand', by_hand),
         ('5a facts in three contracts', repeated_facts), ('5b parameters that travel', travelling), ('6a lengths beside buffers', lengths_beside),
         ('6b parallel arrays', parallel), ('6c searches by halving', only('halving')), ('6d fixed arrays', lambda: lines(r'let mut \w+(: [^=]*)? = \[[^;\]]+; [^\]]+\];')), ('7a switches', switches), ('7b passed on', passed_on),
         ('8a like answers', like_answers), ('8b lemmas of one statement', like_lemmas)]

CODE, WORDS = r'^\s*//|requires|ensures', 'Refused Malformed Nothing NoneLeft Unknown Broken Other Long Differs TooMany Elsewhere Across Hidden End Ended Absent Failed No NotGiven Wrong Nowhere NoShare NoTime Closed NotLoadable Full Anywhere Before'
OTHER = [  # what is counted, the lines, those to skip
    ('1a uses of an empty or refusing word of an own enum', r'(?<!Refusal::)\b[A-Z]\w+::(' + WORDS.replace(' ', '|') + r')\b', r'Refusal::|ErrorKind'),
    ('1b lines that read a flag beside a value', r'\.(failed|refusal|fits|stored|all|share|more|ended|quorum|outcome|unwritten)\b', CODE),
    ('1c lines with the number of a refusal, or a test of one', r'return [1-9][0-9]?;|(early|lent|refusal|broken|number) != 0|Refused\([0-9]+\)|Broken\([0-9]\)', CODE),
    ('1e arms that pass the number of a refusal on', r'Refused\((number|refusal)\) =>', CODE),
    ('3 lines that begin a while or a loop', r"^\s*('\w+: )?(while|loop)\b", CODE),
    ('3 lines that count by one', r'\b(\w+) (\+|-)= 1;|\b(\w+) = \3 [-+] 1;', CODE),
    ('4 lines that name an order of its own', r'types::(\{[^}]*)?\bOrdering\b', r'^\s*//'),
    ('4 types that derive Clone and Copy alone', r'derive\(Clone, Copy\)', r'^\s*//'),
    ('4 sums and remainders of bytes and digits', r'(65536|4294967296|16777216)|[/%*] 256|256 \*|\(48 \+|\(87 \+', CODE + '|const'),
    ('5 parameters total: Stake', r'\btotal: Stake\b', r'^\s*//'), ('5 parameters order: &[u64]', r'\border: &\[u64\]', r'^\s*//'),
    ('6 lines of requires about a length', r'requires.*length', r'^\s*//'), ('6 arrays of one element', r'= \[[0-9]\w*; ', r'^\s*//'),
    ('7 lines that name a reading, list, kind or speech', r'\b(Reading|FinalList|RangeKind|Speech|Side)::\w+', CODE + '|use '),
    ('7 parameters and fields of type bool', r'\b\w+: bool\b', r'^\s*//|pub \w+: bool'),
]

if __name__ == '__main__':
    if '--other' in sys.argv:
        print(*(f'{what}: {len(list(lines(this, skip)))}' for what, this, skip in OTHER), sep='\n')
        sys.exit()
    want = sys.argv[2:] if '--list' in sys.argv else []
    for kind, places in KINDS:
        if want and not any(kind.startswith(w) for w in want):
            continue
        found = [f'  {path}:{line}: {text}' for (path, line), text in places()]
        print(f'{kind}: {len(found)}', *(found if '--list' in sys.argv else []), sep='\n')
