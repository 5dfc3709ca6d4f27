#!/usr/bin/env python3
"""Brings the repository's own antt names to one spelling: words in snake case, types and modules in camel case.

Run once, at the top of the repository, right after the kit's port.py. A name is the repository's own if a file of specs/ or proofs/ declares
it. `beAt` and `be-at` both become `be_at`; a name with a capital at its head, an operator and a name of the kit stay as they are. A lemma that
would fall together with a definition gets `_lem`. It changes .antt files, .rt files, must-fail edits and the names
between backticks of the documents. `python3 tools/respell.py --list` prints the names and changes nothing.
"""
import pathlib
import re
import sys

TOP = pathlib.Path(__file__).resolve().parent.parent
WORD = r"[A-Za-zα-ωμ][A-Za-z0-9α-ω_'?\-·₀-₉]*"
TOKEN = re.compile(r"(?<![A-Za-z0-9α-ω_'?\-·₀-₉◌])" + WORD)
MARKS = r'(?:(?:abbrev|pub|unfoldable|private|data|record|where|mutual|constructor)\s+)*'
DECLARED = re.compile(r'\s*' + MARKS + r'(' + WORD + r')\s*(?:[({].*)?:(?:\s|$)')
IMPORT = re.compile(r'^\s*(?:pub )?(?:ghost )?use\s+([^{;\n]*)\.\{([^}]*)\}', re.M)


def plain(name):
    """The new spelling of a name."""
    name = re.sub(r'(?<=[a-z0-9])(?=[A-Z])', '_', name.replace('·', '_'))
    return name.replace('-', '_').lower()


def files(*patterns):
    return sorted(p for pattern in patterns for p in TOP.glob(pattern) if p.is_file() and '/out/' not in str(p))


def is_old(name):
    return not name[0].isupper() and ('-' in name or re.search(r'[a-z0-9][A-Z]', name))


def declared():
    """The names that specs/ and the lemma files declare, with those of the kit that the files import."""
    own, kits = {}, set()
    for path in files('crates/*/specs/**/*.antt', 'crates/*/proofs/*.antt'):
        for line in path.read_text().split('\n'):
            found = DECLARED.match(line)
            if found and not line.lstrip().startswith('--'):
                own.setdefault(found.group(1), path)
            for names in re.findall(r'[({]((?:' + WORD + r'\s+)*' + WORD + r') :', line):
                for name in names.split():
                    own.setdefault(name, path)
    crates = {p.name for p in TOP.glob('crates/*')}
    for path in files('crates/**/*.antt', 'crates/*/src/**/*.rt'):
        for module, names in IMPORT.findall(path.read_text()):
            mine = module.startswith('Rattle.') and module.split('.')[1] in crates
            for name in names.split(','):
                name = name.strip().split(' as ')[0].strip()
                if not mine:
                    kits.add(name)
    return own, kits


def renamed():
    own, kits = declared()
    taken = {n for n in own if not is_old(n)} | kits
    new = {}
    for name in sorted(own, key=lambda n: ('-' in n, n)):
        if not is_old(name) or name in kits:
            continue
        word = plain(name)
        while word in taken:
            word += '_lem'
        taken.add(word)
        new[name] = word
    return new


def respell(text, new):
    return TOKEN.sub(lambda m: new.get(m.group(0), m.group(0)), text)


def outside_comments(text, mark, new):
    """Respells the code whole, and in comments only names with a capital inside, since prose has dashes of its own."""
    camel = {k: v for k, v in new.items() if '-' not in k}
    lines = []
    for line in text.split('\n'):
        code, sep, comment = line.partition(mark)
        lines.append(respell(code, new) + sep + respell(comment, camel))
    return '\n'.join(lines)


def main():
    new = renamed()
    new |= {'Text·decimal': 'text_decimal', 'Part·field': 'part_field', 'Compare·compared': 'compare_compared'}
    if '--list' in sys.argv:
        for name, word in new.items():
            print(name, word)
        return
    for path in files('crates/**/*.antt'):
        text = outside_comments(path.read_text(), '-- ', new)
        if path.name == 'Proof.antt':
            old = re.findall(r'^pub (' + WORD + r')[-_]spec(?= :)', text, re.M)
            for name in old:
                text = re.sub(r"(?<![\w\-])" + re.escape(name) + r'[-_]spec(?![\w\-])', path.parent.name.lstrip('+') + '_spec', text)
        path.write_text(text)
    for path in files('crates/*/src/**/*.rt'):
        path.write_text(outside_comments(path.read_text(), '// ', new))
    for path in files('crates/*/must-fail/*.edit'):
        path.write_text(respell(path.read_text(), new))
    for path in files('*.md', 'docs/**/*.md'):
        text = path.read_text()
        path.write_text(re.sub(r'`[^`\n]+`', lambda m: respell(m.group(0), new), text))


if __name__ == '__main__':
    main()
