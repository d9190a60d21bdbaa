#!/usr/bin/env python3
"""Spells the repository's own words in snake case, once, after the spelling of the language's library had been turned.

usage: python3 tools/snake_names.py

A word is turned if a file of specs/ or proofs/ declares it, or uses it as a variable, and no library of the kit has it: each dash
between two letters becomes an underscore. Names of the library, of what Rattle makes (Lts-.., Need-..), of functions of src/, of files,
exported names and texts between quotation marks stay. In comments, documents and edits a word is turned if it is declared and is no
word of plain English.
"""
import collections
import glob
import os
import re
import sys

ROOT = os.path.dirname(os.path.dirname(os.path.abspath(__file__)))
WORD = re.compile(r'[^\s(){}.;,@"«»]+')
SIGNATURE = re.compile(r'^\s*(?:pub |abbrev |unfoldable |private |data |record |module )*([^\s(){}.;,@"]+)(?: \{[^{}]*\}| \([^()]*\))* :(?= |$)')
IMPORT = re.compile(r'use ([^\s{]+)\.\{([^}]*)\}')
MADE = re.compile(r'(Lts|Need)-')
# Definitions that would get the name of a function of src/ that cites them.
OTHER = {w: w.replace('-', '_') + '_of' for w in (
    'bad-pieces bad-shape bivariate-resultant bad-multiplier bad-lengths bad-words replaced-at served-length zero-top all-below bad-length '
    'bad-modulus first-waiting give-frame coefficient-after number-after').split()}
OTHER['put-mid'] = 'put_mid_lem'
# Words that specs/ and proofs/ declare and that comments and documents also use as English.
ENGLISH = set()
DASH = re.compile(r"(?<=[\w'])-(?=\w)")


def read(path):
    with open(path, encoding='utf-8') as file:
        return file.read()


def own(head):
    steps = head.split('.')
    return steps[0] == 'Rattle' and len(steps) > 1 and os.path.isdir(os.path.join(ROOT, 'crates', steps[1]))


def snake(word):
    return OTHER[word] if word in OTHER else DASH.sub('_', word)


def antt_files():
    return sorted(p for part in ('specs', 'proofs') for p in glob.glob(os.path.join(ROOT, 'crates', '*', part, '**', '*.antt'), recursive=True))


def code(line):
    """The code and the comment of a line of antt."""
    match = re.search(r'(?<![^\s(){}.;,@"«»])--', line)
    return (line[:match.start()], line[match.start():]) if match else (line, '')


def words():
    """(words of the library, words that are declared, words that are used in code)."""
    library, declared, used = set(), set(), set()
    for path in antt_files():
        for line in read(path).split('\n'):
            if line.startswith('use '):
                match = IMPORT.match(line)
                if match and not own(match.group(1)):
                    library |= {w.strip().split(' as ')[0].strip() for w in match.group(2).split(',')}
                elif match:
                    used |= {x for w in match.group(2).split(',') for x in w.strip().split(' as ')}
                continue
            line = code(line)[0]
            match = SIGNATURE.match(line)
            if match:
                declared.add(match.group(1))
            match = re.search(r'\bruleset (\S+)', line)
            if match:
                declared.add(match.group(1))
            used |= set(WORD.findall(line))
    return library, declared, used


def turned_code(line, table, kept):
    def one(match):
        word = match.group()
        if word in table and (word not in kept or line[match.start() - 1:match.start()] == '.' or FIELD.match(line, 0) and FIELD.match(line).group(1) == word):
            return table[word]
        return word
    return WORD.sub(one, line)


FIELD = re.compile(r"\s*(?:pub )?([^\s(){}.;,@]+) [:=](?= )")


def turned_prose(text, table):
    return re.sub(r"(?<![\w'./-])([A-Za-zα-ωκν][\w'₀-₉]*(?:-[\w'₀-₉]+)+)(?![\w/-])", lambda m: table.get(m.group(1), m.group(1)), text)


def main():
    library, declared, used = words()
    both = {w for w in library & declared if '-' in w}
    table = {w: snake(w) for w in used | declared if snake(w) != w and not MADE.match(w) and (w not in library or w in both)}
    prose = {w: s for w, s in table.items() if w in declared and w not in library and w not in ENGLISH}
    texts, meets = {}, []
    for path in antt_files():
        text = read(path)
        imported = {w.strip().split(' as ')[0].strip() for l in text.split('\n') for m in [IMPORT.match(l)] if m and not own(m.group(1)) for w in m.group(2).split(',')}
        kept = both & imported
        lines = []
        for line in text.split('\n'):
            if line.startswith('use '):
                match = IMPORT.match(line)
                if match:
                    mine = own(match.group(1))

                    def item(w):
                        parts = w.strip().split(' as ')
                        first = table.get(parts[0], parts[0]) if mine else parts[0]
                        rest = [table.get(p, p) for p in parts[1:]]
                        if rest and rest[0] == first:
                            rest = []
                        return ' as '.join([first] + rest)
                    line = line[:match.start(2)] + ', '.join(item(w) for w in match.group(2).split(',') if w.strip()) + line[match.end(2):]
                lines.append(line)
                continue
            front, back = code(line)
            lines.append(turned_code(front, table, kept) + turned_prose(back, prose))
        new = '\n'.join(lines)
        before = {w for l in text.split('\n') for w in WORD.findall(code(l)[0])}
        there = before - set(table)
        for w in before & set(table):
            if table[w] in there and w not in kept:
                meets.append('meets: %s: %s and %s' % (os.path.relpath(path, ROOT), w, table[w]))
        texts[path] = (text, new)
    for path in sorted(glob.glob(os.path.join(ROOT, 'crates', '*', 'src', '**', '*.rt'), recursive=True)):
        text = read(path)
        names = set(re.findall(r'\b(?:fn|struct|enum|const|mod|let|mut) +(?:mut )?(\w+)', text)) | set(re.findall(r'\b(\w+):', text))
        lines = []
        for line in text.split('\n'):
            match = re.search(r'//', line)
            front, back = (line[:match.start()], line[match.start():]) if match else (line, '')
            if re.match(r'ghost use ', front):
                for w in WORD.findall(front):
                    if w in table and table[w] in names:
                        meets.append('meets: %s: %s and a name of the code' % (os.path.relpath(path, ROOT), w))
            lines.append(turned_code(front, table, set()) + turned_prose(back, prose))
        texts[path] = (text, '\n'.join(lines))
    for path in sorted(glob.glob(os.path.join(ROOT, 'crates', '*', 'must-fail', '*.edit'))):
        text = read(path)
        lines = []
        for line in text.split('\n'):
            if line.startswith(('old: ', 'new: ')):
                lines.append(WORD.sub(lambda m: table.get(m.group(), m.group()) if m.group() in prose else m.group(), line))
            elif line.startswith('#'):
                lines.append(turned_prose(line, prose))
            else:
                lines.append(line)
        texts[path] = (text, '\n'.join(lines))
    for path in sorted(glob.glob(os.path.join(ROOT, 'docs', '*.md')) + glob.glob(os.path.join(ROOT, '*.md'))):
        if os.path.basename(path) in ('PORT.md', 'CHANGELOG.md'):
            continue
        text = read(path)
        texts[path] = (text, turned_prose(text, prose))
    if '--prose' in sys.argv:
        found = collections.Counter()
        for path, (text, new) in texts.items():
            for line, other in zip(text.split('\n'), new.split('\n')):
                if line != other:
                    back = line if path.endswith('.md') else code(line)[1] if path.endswith('.antt') else line[line.find('//'):] if '//' in line else ''
                    for m in re.finditer(r"(?<![\w'./-])([A-Za-z][\w']*(?:-[\w']+)+)(?![\w/-])", back):
                        if m.group(1) in prose:
                            found[m.group(1)] += 1
        print(' '.join(w for w, n in sorted(found.items())))
        return 0
    for line in sorted(set(meets)):
        print(line)
    if meets and '--all-the-same' not in sys.argv:
        return 1
    for path, (text, new) in texts.items():
        if new != text:
            with open(path, 'w', encoding='utf-8') as file:
                file.write(new)
    print('%d words, %d files' % (len(table), sum(a != b for a, b in texts.values())))
    return 0


if __name__ == '__main__':
    sys.exit(main())
