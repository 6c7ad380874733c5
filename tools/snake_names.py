#!/usr/bin/env python3
"""Brings the repository's own definitions, lemmas, fields and variables of specs/ and proofs/ to one spelling: words in snake
case (`step-tima` and `stepTima` become `step_tima`). Types, constructors and modules keep their camel case; names of the kit, of
Rust's functions, exported names, strings, comments of .rt files, inputs and outputs are left alone. In a comment or a page a word
changes only where it is one of the names that changed. Run once at the top: python3 tools/snake_names.py [--dry]"""
import collections
import os
import re
import subprocess
import sys

DRY = '--dry' in sys.argv
# The kit's own names are left alone: `rt doc` says where it is.
KIT = os.path.join(os.path.dirname(subprocess.run(['rt', 'doc'], capture_output=True, text=True).stdout.strip()), 'rattle')
# A name that would fall together with another word of a file of specs/ or proofs/: a lemma gets the ending _law.
OTHER = {'fieldsIn': 'all_fields_in', 'goesOn': 'does_go_on'}
NAME = r"[A-Za-z_][\w'·]*(?:-[\w'·]+)*"
TOKEN = re.compile(r"(?<![\w'·-])" + NAME)
HEAD = re.compile(r"(?m)^(?:(?:abbrev|unfoldable|pub|opaque|ruleset)\s+)*(" + NAME + r")\s+:(?!:)")
BOUND = re.compile(r"(?:(?<=[{;,(])\s*|(?m:^)\s+)((?:" + NAME + r"\s+)*" + NAME + r")\s+:(?!:)")
LAMBDA = re.compile(r"[λ∀∃]\s*((?:" + NAME + r"\s*)+)\.")
LET = re.compile(r"\blet\s+(" + NAME + r")\b")


def odd(word):
    return re.match(r'[a-z_]', word) and ('-' in word or re.search('[a-z0-9][A-Z]', word))


def snake(word):
    return re.sub(r'(?<=[a-z0-9])([A-Z])', lambda m: '_' + m.group(1).lower(), word.replace('-', '_'))


def pieces(text, mark):
    """Pieces (is left alone, text): comments, and in .rt strings."""
    at = 0
    pattern = r'(?m)(?:^|(?<=\s))--(?![\w-]).*$|(?:^|(?<=\s))--$' if mark == '--' else r'(?m)//.*$|b?"(?:[^"\\]|\\.)*"|b?\'(?:[^\'\\]|\\.)\''
    for m in re.finditer(pattern, text):
        yield False, text[at:m.start()]
        yield True, m.group(0)
        at = m.end()
    yield False, text[at:]


def walked(path):
    return path.endswith('/Proof.antt')


def main():
    texts = {}
    for root, dirs, names in os.walk('crates'):
        dirs[:] = sorted(d for d in dirs if d not in ('out', 'data'))
        for name in sorted(names):
            if name.endswith(('.antt', '.rt', '.edit')):
                texts[os.path.join(root, name)] = open(os.path.join(root, name)).read()
    own = set()
    for path, text in texts.items():
        if path.endswith('.antt'):
            code = ''.join(piece for alone, piece in pieces(text, '--') if not alone)
            if walked(path):
                for m in re.finditer(r"(?m)^(?:pub )?(" + NAME + r")\s+: (?!tie\.)", code):
                    own.add(m.group(1))
                continue
            for m in HEAD.finditer(code):
                own.add(m.group(1))
            for pattern in (BOUND, LAMBDA, LET):
                for m in pattern.finditer(code):
                    own.update(m.group(1).split())
    kit = set()
    for root, dirs, names in os.walk(KIT):
        for name in names:
            if name.endswith('.antt'):
                for m in re.finditer(r"(?m)^\s*(?:(?:abbrev|unfoldable|pub|opaque)\s+)*(" + NAME + r")\s+:", open(os.path.join(root, name), errors='replace').read()):
                    kit.add(m.group(1))
    changed = {word: snake(word) for word in own if odd(word)}
    shared = {word for word in changed if word in kit}
    changed.update((word, OTHER[word]) for word in OTHER if word in changed)
    for path, text in texts.items():
        if path.endswith('.antt') and not walked(path):
            seen = collections.defaultdict(set)
            for alone, p in pieces(text, '--'):
                if not alone:
                    for word in TOKEN.findall(p):
                        seen[snake(word) if word in changed else word].add(word)
            for word, olds in seen.items():
                for old in olds:
                    if len(olds) > 1 and '-' in old and old in changed:
                        changed[old] = word + '_law'
    if DRY:
        print(len(changed), 'names')
        print('the kit has', sorted(shared))

    def table(path, text):
        """The names that change in this file."""
        here = dict(changed)
        for m in re.finditer(r"(?m)^(?:ghost )?use ((?!Rattle\.(?:" + '|'.join(crates) + r")\.)[\w.·-]+)\.\{([^}]*)\}", text):
            for word in re.split(r'[\s,]+', m.group(2)):
                here.pop(word, None)
        return here

    crates = sorted(os.listdir('crates'))
    pages = []
    for path, text in texts.items():
        here = table(path, text)

        def turn(piece):
            return TOKEN.sub(lambda m: here.get(m.group(0), m.group(0)), piece)

        def turn_comment(piece):
            piece = re.sub(r'`[^`\n]+`', lambda m: turn(m.group(0)), piece)
            return re.sub(r"(?<![\w'·`-])[a-z][a-z0-9]*[A-Z]\w*", lambda w: here.get(w.group(0), w.group(0)), piece)

        if path.endswith('.antt'):
            parts = list(pieces(text, '--'))
            new = ''.join(turn_comment(p) if alone else turn(p) for alone, p in parts)
            mark = '--'
        elif path.endswith('.rt'):
            new = ''.join((turn_comment(p) if p.startswith('//') else p) if alone else turn(p) for alone, p in pieces(text, '//'))
            mark = '//'
        else:
            new = '\n'.join(turn(line) if re.match(r'(old|new): ', line) else turn_comment(line) for line in text.split('\n'))
            mark = None
        if DRY and mark and not walked(path):
            seen = collections.defaultdict(set)
            for alone, p in pieces(text, mark):
                if not alone:
                    for word in TOKEN.findall(p):
                        seen[here.get(word, word)].add(word)
            for word, olds in sorted(seen.items()):
                if len(olds) > 1:
                    print('together:', path, word, sorted(olds))
        if not DRY and new != text:
            open(path, 'w').write(new)
    for root, dirs, names in os.walk('.'):
        dirs[:] = [d for d in dirs if d not in ('.git', 'crates', 'out')]
        for name in names:
            if name.endswith('.md'):
                path = os.path.join(root, name)
                text = open(path).read()
                new = re.sub(r'`[^`\n]+`', lambda m: m.group(0) if re.search(r'[/]|--', m.group(0)) else
                             TOKEN.sub(lambda w: changed.get(w.group(0), w.group(0)) if not re.fullmatch('[a-z-]+', w.group(0)) else w.group(0), m.group(0)), text)
                if not DRY and new != text:
                    open(path, 'w').write(new)


main()
