#!/usr/bin/env python3
"""Brings the repository's own definitions and lemmas to today's spelling. Run once, at the top, right behind the kit's port.py:

    tools/respell.py

Every definition or lemma of specs/ and proofs/ whose name is in lower camel case gets snake case, wherever it stands: in sources (clauses, comments;
no string), specs, proofs, must-fail edits and pages. Names of src/, types, modules and what std offers stay. Where two names would fall together
a lemma gets `_lem`, as std does it. `result` is today's word for what a function returns, so the definition of that name is `result_of`; clauses that
kept a λ for that reason lose it. It proves nothing."""
import pathlib, re

ROOT = pathlib.Path(__file__).resolve().parent.parent
DEFINED = re.compile(r"^\s*(?:(?:abbrev|unfoldable|pub) )*([^\s:(){}.,]+) : ")
# a lemma whose name a respelled definition takes
LEMMAS = {'put_count': 'put_count_lem', 'row_written': 'row_written_lem'}
# names of std in comments and edits, which port.py leaves, and one of a variable
STD = {'natAbs': 'nat_abs', 'toZ': 'to_z', 'ofZ': 'of_z', 'flatRate': 'flat_rate'}


def snake(name):
    return re.sub(r'(?<=[a-z0-9])([A-Z])', lambda m: '_' + m[1].lower(), name)


def files(*patterns):
    return sorted(p for pattern in patterns for p in ROOT.glob(pattern) if 'out' not in p.relative_to(ROOT).parts and p.is_file())


def defined():
    names = set()
    for path in files('crates/*/specs/**/*.antt', 'crates/*/proofs/**/*.antt'):
        for line in path.read_text().splitlines():
            m = DEFINED.match(line)
            if m and m[1][0].islower() and re.search('[a-z0-9][A-Z]', m[1]):
                names.add(m[1])
    return names


def renamed():
    # a dash joins names, each of which is respelled by itself, so that only the parts count
    parts = {part for name in defined() for part in name.split('-') if re.search('^[a-z][a-z0-9_]*[A-Z]', part)}
    new = {part: snake(part) for part in parts}
    return new | LEMMAS | STD


def outside_strings(line, turn):
    """The line with all but its string literals turned."""
    return ''.join(piece if piece.startswith('"') else turn(piece) for piece in re.split(r'("(?:[^"\\]|\\.)*")', line))


def code_alone(line, turn):
    """The line with all but its comment turned."""
    code, dashes, comment = line.partition('--')
    return turn(code) + dashes + comment


def main():
    names = renamed()
    token = re.compile(r"(?<![\w'])(" + '|'.join(sorted(map(re.escape, names), key=len, reverse=True)) + r")(?![\w'])")

    def turn(text):
        return token.sub(lambda m: names[m[1]], text)

    for path in files('crates/*/src/**/*.rt', 'crates/*/specs/**/*.antt', 'crates/*/proofs/**/*.antt', 'crates/*/must-fail/*.edit', 'README.md', 'docs/**/*.md'):
        old = text = path.read_text()
        if path.suffix == '.antt':
            # the definition, where it is made and where it is imported
            if re.search(r"^abbrev pub result :|^use Rattle\.books\.specs\.Words\.\{[^}]*\bresult\b", text, re.M):
                text = '\n'.join(code_alone(line, lambda code: re.sub(r"(?<![\w'.-])result(?![\w'-])", 'result_of', code)) for line in text.split('\n'))
            text = turn(text)
        elif path.suffix == '.rt':
            lines = []
            for line in text.split('\n'):
                line = outside_strings(line, turn)
                if line.startswith('ghost use Rattle.books.specs.Words.'):
                    line = re.sub(r'\bresult\b', 'result_of', line)
                m = re.fullmatch(r'(\s*ensures)\* \{ λ (r|_)\. ⌜ (.*) ⌝ \}', line)
                if m:
                    fact = re.sub(r"(?<![\w'.-])result(?![\w'-])", 'result_of', m[3])
                    line = f"{m[1]} {{ {re.sub(chr(92) + 'br' + chr(92) + 'b', 'result', fact) if m[2] == 'r' else fact} }}"
                lines.append(line)
            text = '\n'.join(lines)
        else:
            # the names of a page or an edit, but not the Rust's own
            text = turn(text)
        if text != old:
            path.write_text(text)


main()
