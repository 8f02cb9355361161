#!/usr/bin/env python3
"""Spells the repository's own definitions and lemmas as today's Rattle spells words: snake case, with no dash.

Run once, at the top, on what the kit's port.py left of the older repository. It takes each name with a dash that a file of specs/ or a
lemma file of proofs/ declares, or that is a field or a case of what is declared there, and turns it wherever it stands as a whole word
in .antt, .rt and .edit files, but for comments and strings. Names that a `use` line takes from a library stay; so do the labels of the
old walks (proofs/**/Proof.antt), which are no names of this repository. It stops if two names would fall together.
"""
import glob, re, sys

WORD = r"[\w'◌⊞·-]"
# Spelt after a word of the library that is now spelt otherwise; and the other names that the hash's files give the standard's words.
OTHERWISE = {
    'getD-small': 'get_or_small',
    'Fips-as-State': 'FipsState', 'Fips-as-K': 'fips_K', 'Fips-as-Ch': 'fips_Ch', 'Fips-as-Maj': 'fips_Maj',
    'Fips·digest': 'fips_digest', 'Fips·next': 'fips_next', 'Fips·turn': 'fips_turn',
}
# Names bound inside a definition or an import.
BOUND = {'held-check', 'held-fragments', 'f-plus', 'g-plus', 'bytes-in-all', 'zero-column'}
DECLARED = re.compile(r"^(?: *(?:(?:abbrev|unfoldable|opaque|ruleset|pub|data|record) )+)?([^\W\d][\w'-]*)(?= |:|$)", re.M)
MEMBER = re.compile(r"^ +(?:pub )?([^\W\d][\w'-]*) : ", re.M)
GHOST = re.compile(r"\bghost(?: invariant)? ([^\W\d][\w'-]*)(?= ?[:={])")


def files(*patterns):
    return sorted(p for pattern in patterns for p in glob.glob(pattern, recursive=True))


def code(text, mark):
    """The text in parts, each with whether it is code: comments and strings are not."""
    return [(part, not part.startswith((mark, '"')) ) for part in re.split(r'(' + re.escape(mark) + r'[^\n]*|"(?:[^"\\\n]|\\.)*")', text)]


def main():
    ours = {p.split('/')[1] for p in glob.glob('crates/*/')}
    names, taken, all_declared = BOUND | set(OTHERWISE), set(), set()
    for path in files('crates/*/specs/**/*.antt', 'crates/*/proofs/*.antt', 'crates/*/src/**/*.rt'):
        with open(path) as f:
            text = f.read()
        parts = ''.join(p for p, is_code in code(text, '--' if path.endswith('.antt') else '//') if is_code)
        for pattern in ((DECLARED, MEMBER) if path.endswith('.antt') else (GHOST,)):
            found = set(pattern.findall(parts))
            all_declared |= found
            names |= {n for n in found if '-' in n.strip('-')}
    for path in files('crates/**/*.antt', 'crates/**/*.rt'):
        with open(path) as f:
            for crate, found in re.findall(r"use (?:Rattle[.·])?([\w-]+)[^{;\n]*\{([^}]*)\}", f.read()):
                if crate not in ours:
                    taken |= {n.strip().split(' as ')[0] for n in found.split(',')}
    print('left, since a library has them: ' + ' '.join(sorted(names & taken)))
    new = {n: OTHERWISE.get(n, n.replace('-', '_')) for n in names - taken}
    clash = [n for n, to in new.items() if to in all_declared or list(new.values()).count(to) > 1]
    if clash:
        sys.exit('fall together: ' + ' '.join(clash))
    word = re.compile(r"(?<!" + WORD + r")(" + '|'.join(re.escape(n) for n in sorted(new, key=len, reverse=True)) + r")(?!" + WORD + r")")
    changed = places = 0
    for path in files('crates/**/*.antt', 'crates/**/*.rt', 'crates/*/must-fail/*.edit'):
        with open(path) as f:
            text = f.read()
        out = ''
        for part, is_code in code(text, '//' if path.endswith('.rt') else '--'):
            if is_code:
                part, n = word.subn(lambda m: new[m[1]], part)
                places += n
            out += part
        if out != text:
            changed += 1
            with open(path, 'w') as f:
                f.write(out)
    print(f'{len(new)} names, {places} places, {changed} files')


main()
