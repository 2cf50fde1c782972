#!/usr/bin/env python3
# Respells this repository's own definitions and lemmas as today's Rattle spells them: words in snake case, module aliases in upper camel case.
# Run once at the top, right after the kit's port.py: python3 tools/respell.py [--dry] [COMMIT], where COMMIT is the last one in the older spelling.
# Names are gathered from that commit, so that names that port.py turned by chance (as the kit's words) are turned by the same rule as the others.
import collections, os, re, subprocess, sys

dry = '--dry' in sys.argv
rest = [a for a in sys.argv[1:] if a != '--dry']
LANDED = rest[0] if rest else '429bc84dad843b8463fed5d2e66525c5e6ff366a'

# A name that would fall together with another in a file where both are used, and what it is called instead.
INSTEAD = {
    'answer-of': 'answer_of_taking',
    'at-start': 'going_at_start',
    'encap-header': 'encap_header_cut',
    'is-free': 'block_is_free',
    'replies-to': 'reply_to',
    'space-header': 'space_header_cut',
}
# Theorems and laws that keep their words, since nothing of the same name is brought in beside them.
PLAIN = {'reads-file', 'reads-record', 'which-octet', 'whose-fault', 'writes-encapsulation', 'writes-record', 'writes-space'}
# A case of `Public` has its function's name, though elsewhere a lemma has the same.
HERE = {('crates/entries', 'is-ready'): 'is_ready'}
# The entries have the names of their functions with this word behind, since the functions' own names stand beside them.
ENTRY = '_entry'

TOKEN = re.compile(r"[^\s(){}\[\].,;:\"`|∷]+")
DECL = re.compile(r"^\s*(?:abbrev |unfoldable |pub |data |record )*([^\s:=(){}]+(?: [^\s:=(){}]+)*?)(?: [({].*)? :(?:\s|$)")
ALIAS = re.compile(r"^(?:ghost )?use \S+ as ([^\s;]+)")
KIT = re.compile(r"^(?:ghost )?use (?!Rattle·)\S+\.\{(.*)\}")
PATH = re.compile(r"^(?:ghost )?use [^\s{]+")
WORDS = {'use', 'module', 'where', 'let', 'open', 'unfolding', 'infix', 'infixl', 'infixr', 'elim', 'in', 'λ', '→', '↦', '|', '--', '≡', '×', '_', 'mutual'}


# What port.py made of three of them, as if they were the kit's words.
CHANCE = {('number-of', 'number_of_lem'), ('size-of', 'type_size'), ('is-within', 'is_Within')}


def flat(name):
    return re.sub(r"[-_◌′']", '', name).lower()


def git(*args):
    return subprocess.run(['git', *args], capture_output=True, text=True, check=True).stdout


def snake(name):
    name = name.replace('′', "'").replace('-', '_')
    if name[0].isupper():
        return name
    return re.sub(r"(?<=[a-z0-9])([A-Z])", lambda m: '_' + m.group(1).lower(), name)


def camel(name):
    return ''.join(w[0].upper() + w[1:] for w in re.split(r"[-_]", name))


def declared(text):
    names = []
    for line in text.split('\n'):
        m = DECL.match(line)
        if m:
            parts = m.group(1).split(' ')
            if not any(p in WORDS or p.startswith('--') for p in parts):
                names += parts
    return names


def tokens(text):
    return set(TOKEN.findall(text))


paths = [p for p in git('ls-tree', '-r', '--name-only', LANDED, 'crates').split('\n') if p.endswith(('.antt', '.rt'))]
old = {p: git('show', f'{LANDED}:{p}') for p in paths}
new = {p: open(p).read() for p in paths if os.path.exists(p)}

# what port.py made of each declared name
made = collections.defaultdict(set)
for p in paths:
    if p.endswith('.antt') and p in new:
        a, b = declared(old[p]), declared(new[p])
        if len(a) == len(b):
            for x, y in zip(a, b):
                if flat(x) == flat(y) or (x, y) in CHANCE:
                    made[x].add(y)
        else:
            # port.py wrote some over several lines: then a name is looked for in the whole text
            there = tokens(new[p])
            for x in a:
                made[x] |= {y for y in there if x[0].isalpha() and x[0] == y[0] and flat(x) == flat(y)}
own = {x for x in made if '_' not in x and '◌' not in x}
wanted = {x: INSTEAD.get(x, snake(x)) for x in own}
entries = 'crates/entries/specs/Entries.antt'
for x in re.findall(r"^abbrev pub (\w+) : Entry$", old[entries], re.M):
    wanted[x] = snake(x) + ENTRY
# a lemma, a field or a case that would have its function's name
for p in paths:
    if p.endswith('.antt') and not (p.count('/') > 3 and '/proofs/' in p):
        aliases = {m.group(1) for m in map(ALIAS.match, old[p].split('\n')) if m}
        there = (tokens(old[p]) & own) - aliases
        functions = {wanted[x] for x in there if re.search(r"[a-z][A-Z]", x)}
        for x in there:
            if '-' in x and x not in PLAIN and wanted[x] in functions:
                wanted[x] += '_lem'
# names of answers follow the code, and are made anew with the proofs
ANSWER = re.compile(r"^(returns|loop|Inv|invariant|overflow|bounds|step|L)(-|$)")


for p in sorted(new):
    there, now = tokens(old[p]), tokens(new[p])
    turn, alias = {}, {}
    for x in (m.group(1) for m in map(ALIAS.match, old[p].split('\n')) if m):
        if re.search(r"[a-z][A-Z]", x):
            for y in {x, snake(x)} | made.get(x, set()):
                if y in now:
                    alias[y] = camel(x)
    # a name that a file takes from the kit is the kit's there
    kit = {x.split(' as ')[0].strip() for m in map(KIT.match, old[p].split('\n')) if m for x in m.group(1).split(',')}
    for x in sorted((there & own) - kit):
        if p.count('/') > 3 and '/proofs/' in p and ANSWER.match(x):
            continue
        for y in made[x]:
            if y in now and not (y in alias and x not in tokens(re.sub(r"\S+\.", '', old[p]))):
                t = HERE.get(('/'.join(p.split('/')[:2]), x), wanted[x])
                if turn.get(y, t) != t:
                    print('clash:', p, y, turn[y], t)
                turn[y] = t
    to = collections.defaultdict(set)
    for y in now:
        to[turn.get(y, y)].add(y)
    for t, ys in to.items():
        if len(ys) > 1:
            print('together:', p, sorted(ys), '->', t)

    def put(m):
        y, text, i, j = m.group(0), m.string, m.start(), m.end()
        if PATH.match(text) and j < PATH.match(text).end():
            return y
        if y in alias and (text[j:j + 1] == '.' and text[i - 1:i] != '.' or text[:i].endswith(' as ')):
            return alias[y]
        if p.endswith('.rt') and '-' not in y and not re.search(r"[a-z][A-Z]", y):
            return y
        return turn.get(y, y)

    text = '\n'.join(TOKEN.sub(put, line) for line in new[p].split('\n'))
    if text != new[p] and not dry:
        open(p, 'w').write(text)
