#!/usr/bin/env python3
"""Brings the names of this repository's own definitions and lemmas to today's spelling.

Run without arguments at the top of the repository. A second run changes nothing.

- A name that begins with a lower-case letter is in snake_case. A part of it, between dashes, that begins with a capital
  names a type, and stays.
- A dash joins two names: it stays before the name of a definition, of a library function, or of a type. Before a plain
  word it becomes `_`.

Renamed are whole words, by one table of old and new names. Names of the library and of Rattle code stay, and so do those
that the tool generates in the folders of functions under proofs/.
"""
import glob
import os
import re
import sys

# Functions of the library that a dash may stand before.
LIBRARY = set('''length drop take append reverse map get_or set sets splice sum add sub mul div mod pow le lt eq max min
cond and or not zero one'''.split())

RESERVED = set('''data record deriving module where use mod pub package open as unfoldable abbrev axiom unfold unfolding
ruleset mutual infix infixl infixr elim let in do Type coe fcoe tcoe hcom com ground assumption search grind simp omega rw
cc'''.split())

# Names for which the rules give one that is taken: what they become instead.
SPECIAL = {
    'all-bytes': 'all_bytes_lem',
    'holds-getD': 'holds-get_or',
}

# Names that already have today's spelling and give way to a definition that comes to be spelled so: the definition, the
# name, what it becomes, and the files.
GIVE_WAY = [
    ('flatOk', 'flat_ok', 'flat_ok_lem', ['demands/specs/SameLayout']),
    ('partFree', 'part_free', 'part_free_lem', ['demands/specs/ClearedSchema']),
    ('treeFree', 'tree_free', 'tree_free_lem', ['demands/specs/ClearedSchema']),
    ('flatStep', 'flat_step', 'flat_step_lem',
     ['demands/specs/WrittenSteps', 'demands/specs/StepShown', 'demands/specs/SameStep']),
    ('placeRead', 'place_read', 'place_read_lem', ['demands/specs/TreeRead']),
    ('membersPlain', 'members_plain', 'members_plain_lem', ['demands/specs/WrittenPlain']),
    ('noBool', 'no_bool', 'no_bool_lem', ['judge_rows/proofs/RowCases']),
    ('inPlace', 'in_place', 'in_place_at',
     ['demands/specs/WrittenParts', 'demands/specs/WrittenSteps', 'demands/specs/WrittenTree']),
    ('structOk', 'struct_ok', 'struct-ok-reads', ['message_layout/proofs/+field_ok_struct_ok/Proof']),
]

WORD = re.compile(r'[^\s(){}\[\];,.@"`]+')
USE = re.compile(r'^\s*(?:pub |ghost )*use (\S+?)(?:\.\{(.*?)\}|(?: as (\S+?))?);?\s*$')
DECLARED = re.compile(r'^(\s*)((?:(?:pub|abbrev|unfoldable|axiom) )*)((?:[^\s(){}\[\];,.@"`:=]+ )+):(?:\s|$)')
HEAD = re.compile(r'^\s*(?:pub )?(record|data) (\S+)')


def snake_part(part):
    if part[:1].isupper():
        return part
    part = part.replace('NaN', 'Nan')
    part = re.sub(r'([A-Z])([A-Z][a-z])', r'\1_\2', part)
    part = re.sub(r"([^\W_A-Z]|')([A-Z])", r'\1_\2', part)
    return part.lower()


def snake(name):
    return '-'.join(snake_part(p) for p in name.split('-'))


def spelled(name, definitions):
    if name in SPECIAL:
        return SPECIAL[name]
    if name in SPECIAL.values() or '◌' in name or not re.search(r'[^\W\d_]', name):
        return name
    first, *rest = snake(name).split('-')
    if not first or not all(rest):
        return name
    for part in rest:
        # the name that is joined may have plain words behind it already, as in `length-take_le`
        words = part.rstrip("'").split('_')
        starts = {'_'.join(words[:i + 1]) for i in range(len(words))}
        keep = part[0].isupper() or bool(starts & definitions) or bool(starts & LIBRARY)
        first += ('-' if keep else '_') + part
    return first


def code_and_comment(line):
    """The line before and from its comment on."""
    m = re.search(r'(?:^|(?<=\s))(?:--|//)(?:\s|$|-)', line)
    return (line[:m.start()], line[m.start():]) if m else (line, '')


def in_folder_of_function(path):
    return bool(re.match(r'crates/[^/]+/proofs/[^/]+/', path))


def declarations(text):
    """(words before, name, line) of each declaration of a file: top level, sections, fields and constructors."""
    block = None  # the indentation and kind of the record or data that is open
    for line in text.split('\n'):
        code, _ = code_and_comment(line)
        if not code.strip():
            continue
        indent = len(code) - len(code.lstrip())
        if block is not None and indent <= block[0]:
            block = None
        head = HEAD.match(code)
        if head and not code.rstrip().endswith('record {'):
            block = (indent, head.group(1))
            yield head.group(1), head.group(2)
            continue
        m = DECLARED.match(code)
        if m:
            for name in m.group(3).split():
                if name not in RESERVED:
                    yield m.group(2), name


class Uses:
    """What a file's use lines bring in: names and aliases, of the library and of the repository."""

    def __init__(self, text, crates):
        self.library, self.own, self.library_alias, self.own_alias = set(), set(), set(), set()
        whole = re.sub(r'(?m)^(use [^\n]*\.\{)\n([^}]*)\}', lambda m: m.group(1) + m.group(2).replace('\n', ' ') + '}', text)
        for line in whole.split('\n'):
            m = USE.match(code_and_comment(line)[0])
            if not m:
                continue
            path, names, alias = m.groups()
            own = own_path(path.split('.'), crates)
            if names is not None:
                (self.own if own else self.library).update(WORD.findall(names))
            else:
                (self.own_alias if own else self.library_alias).add(alias or path.split('.')[-1])


def own_path(parts, crates):
    return len(parts) > 1 and parts[0] == 'Rattle' and parts[1] in crates


LIBRARY_ROOTS = {'mathlib', 'native', 'lib', 'borrow', 'Prim'}


def renamed_code(code, name_of, uses, crates):
    """A line of code with its words renamed; a path into the library stays."""
    m = USE.match(code)
    if m:
        path, names, _ = m.groups()
        if names is None or not own_path(path.split('.'), crates):
            return code
        at = code.index('.{') + 2
        return code[:at] + WORD.sub(lambda w: name_of(w.group(), True), code[at:])
    out, last, chain = [], 0, None
    for w in WORD.finditer(code):
        joined = w.start() > 0 and code[w.start() - 1] == '.' and (w.start() < 2 or not code[w.start() - 2].isspace())
        if not joined or chain is None:
            chain = [w.group()]
        else:
            chain.append(w.group())
        out.append(code[last:w.start()])
        last = w.end()
        foreign = joined and (chain[0] in LIBRARY_ROOTS or chain[0] in uses.library_alias
                              or chain[0] == 'Rattle' and not own_path(chain, crates))
        out.append(w.group() if foreign else name_of(w.group(), joined))
    return ''.join(out) + code[last:]


def renamed_comment(comment, table):
    """In a comment: words between backticks, words with a capital inside, and words behind a module's name."""
    out = []
    for i, piece in enumerate(comment.split('`')):
        def name_of(w):
            word = w.group()
            plain = word.rstrip(':')
            behind = w.start() > 0 and piece[w.start() - 1] == '.'
            if i % 2 or re.match(r'[a-z]\w*[A-Z]', word) or behind:
                return table.get(plain, plain) + word[len(plain):]
            return word
        out.append(WORD.sub(name_of, piece))
    return '`'.join(out)


def main():
    crates = {os.path.basename(d) for d in glob.glob('crates/*') if os.path.isdir(d)}

    def read(path):
        with open(path, encoding='utf-8') as f:
            return f.read()

    antt = {p: read(p) for p in sorted(glob.glob('crates/**/*.antt', recursive=True))}
    rt = {p: read(p) for p in sorted(glob.glob('crates/**/*.rt', recursive=True))}
    edits = {p: read(p) for p in sorted(glob.glob('crates/*/must-fail/*.edit') + glob.glob('tests/edits/*.edit'))}
    docs = {p: read(p) for p in sorted(glob.glob('docs/**/*.md', recursive=True) + ['README.md'])}

    original = dict(antt)
    for taker, name, new, files in GIVE_WAY:
        if not any(re.search(rf'(?m)^\s*(unfoldable |abbrev )?(pub )?{taker} :', t) for t in antt.values()):
            continue
        for path in files:
            path = f'crates/{path}.antt'
            lines = []
            for line in antt[path].split('\n'):
                code, comment = code_and_comment(line)
                # not behind an alias such as `T.`, nor as a part of a path
                code = re.sub(rf"(?<![\w'+-])(?<![A-Z]\.)(?<!proofs\.){name}(?![\w'-])", new, code)
                lines.append(code + comment)
            antt[path] = '\n'.join(lines)

    # What is declared, and which of it are definitions.
    declared, definitions = {}, set()
    for path, text in antt.items():
        if in_folder_of_function(path):
            continue
        declared[path] = set()
        for words, name in declarations(text):
            declared[path].add(name)
            if '/specs/' in path and '-' not in name and ('abbrev' in words or 'unfoldable' in words):
                definitions.add(snake(name))
    everything = set().union(*declared.values())
    table = {}
    for name in sorted(everything):
        new = spelled(name, definitions)
        if new != name:
            table[name] = new
    # A lemma that would have its definition's name.
    camel = {new for old, new in table.items() if '-' not in old}
    for old, new in table.items():
        if '-' in old and new in camel and old not in SPECIAL:
            table[old] = new + '_lem'
            print(f'look: {old} would be {new}, a definition: it becomes {table[old]}')

    # The words of each file that can meet without a module's name before them, and what is renamed in it.
    bad = False
    plans = {}
    for path, text in list(antt.items()) + list(rt.items()):
        uses = Uses(text, crates)
        local = set()
        if in_folder_of_function(path):
            for line in text.split('\n'):
                m = DECLARED.match(line)
                if m and not m.group(1):
                    local.update(m.group(3).split())
            local |= {a for a in uses.own_alias | uses.library_alias if a in table}
            local -= uses.own
        skip = local | (uses.library - declared.get(path, set()) - uses.own)
        for name in sorted(skip & table.keys()):
            if name in text:
                print(f'note: {path}: {name} is another thing here and stays')
        for name in sorted(uses.library & table.keys() & (declared.get(path, set()) | uses.own)):
            print(f'look: {path}: {name} is a name of the library too')
            bad = True
        plans[path] = (skip, uses)
        words = set()

        def collect(word, joined):
            words.add((word, joined))
            return word
        for line in text.split('\n'):
            code = code_and_comment(line)[0]
            renamed_code(code, collect, uses, crates)
        free = {w for w, joined in words if not joined} | uses.own | uses.library | declared.get(path, set())
        # A function of Rattle may have the name of the definition that it computes: `reversed` in bits did from the start.
        if path in rt:
            free = uses.own | uses.library
        got = {}
        for w in sorted(free):
            new = w if w in skip else table.get(w, w)
            got.setdefault(new, []).append(w)
        for new, olds in got.items():
            if len(olds) > 1:
                print(f'look: {path}: {" and ".join(olds)} would both be {new}')
                bad = True
            elif olds[0] != new and (new in RESERVED or new in uses.library):
                print(f'look: {path}: {olds[0]} would be {new}, which is taken')
                bad = True
    by_new = {}
    for old, new in table.items():
        by_new.setdefault(new, []).append(old)
    for new, olds in sorted(by_new.items()):
        if len(olds) > 1 or new in everything:
            print(f'note: {" and ".join(olds)} become {new}' + (', which stands elsewhere too' if new in everything else ''))
        if new in RESERVED:
            print(f'look: {olds[0]} would be {new}, a reserved word')
            bad = True
    if '--table' in sys.argv:
        for old, new in table.items():
            print(old, new)
    print(f'names renamed: {len(table)}')
    if bad:
        sys.exit('nothing is written')

    def write(path, old, new):
        if old != new:
            with open(path, 'w', encoding='utf-8') as f:
                f.write(new)

    for path, text in list(antt.items()) + list(rt.items()):
        skip, uses = plans[path]
        lines = []
        for line in text.split('\n'):
            code, comment = code_and_comment(line)
            code = renamed_code(code, lambda w, joined: w if w in skip and not joined else table.get(w, w), uses, crates)
            lines.append(code + renamed_comment(comment, table))
        write(path, original.get(path, text), '\n'.join(lines))

    # The edits and the documents cite some names as they were spelled still earlier.
    now = {table.get(n, n) for n in everything}

    def cited(word):
        if word in table:
            return table[word]
        if re.match(r'[a-z][^\W_]*[A-Z]', word) and word not in now:
            new = spelled(word, definitions)
            return new if new in now else word
        return word

    for path, text in edits.items():
        lines = []
        for line in text.split('\n'):
            if re.match(r'(old|new):', line):
                line = line[:4] + WORD.sub(lambda w: cited(w.group()), line[4:])
            lines.append(line)
        write(path, text, '\n'.join(lines))
    for path, text in docs.items():
        write(path, text, re.sub(r'`[^`\n]+`', lambda q: WORD.sub(lambda w: cited(w.group()), q.group()), text))


main()
