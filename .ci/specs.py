"""The definitions of crates/*/specs: their lines, their comments, and what each cites of the others. Read by .ci/believed and .ci/trace."""
import pathlib
import re

ROOT = pathlib.Path(__file__).resolve().parent.parent

NAME = r"[^\s(){};,.λ∀→×≡]+"
# Before a name, as opposed to a field, which follows a dot: `e.products` cites `e`, and no definition `products`.
BEGINS = r"(?<![^\s(){};,λ∀→×≡])"
HEAD = re.compile(r'(?:(?:pub|unfoldable|abbrev|opaque)\s+)*(?:(record|data)\s+)?(' + NAME + r')')
SPECS = re.compile(r'(?:pub |ghost )*use Rattle\.(\w+)\.specs\b')
IMPORT = re.compile(r'(?:pub |ghost )*use Rattle\.(\w+)\.specs\.([\w.]+?)(?:\.\{([^}]*)\}| as (\w+));?$')
MEMBER = re.compile(r'  (?:pub )?(' + NAME + r') : ')

# The crates of this repository; any other name after `Rattle.` is a library of the kit.
CRATES = {path.parent.name for path in (ROOT / 'crates').glob('*/src')}


def lines_of(path):
    """The lines of a file, each `use` on one line."""
    one = lambda found: ' '.join(found.group().split())
    return re.sub(r'^(?:pub |ghost )*use [^{;\n]*\{[^}]*\}', one, path.read_text(encoding='utf-8'), flags=re.M).splitlines()


class Imports:
    """The definitions of specs/ that the `use` lines of a file name: each by its name in the file, or a module by another name."""

    def __init__(self, path, lines):
        self.imports, self.aliases = {}, {}
        for line in lines:
            within = SPECS.match(line)
            if not within or within.group(1) not in CRATES:
                continue
            found = IMPORT.match(line)
            if not found:
                raise SystemExit(f'{path.relative_to(ROOT)}: no rule of .ci/specs.py reads {line}')
            crate, name, names, alias = found.groups()
            if alias:
                self.aliases[alias] = (crate, name)
                continue
            for item in filter(None, map(str.strip, names.split(','))):
                there, _, here = item.partition(' as ')
                self.imports[here or there] = (crate, name, there)


class Module(Imports):
    """A file of specs/: what it imports, its definitions with the lines of each, and what its comments stand over."""

    def __init__(self, crate, name):
        self.path = ROOT / 'crates' / crate / 'specs' / (name.replace('.', '/') + '.antt')
        lines = lines_of(self.path)
        super().__init__(self.path, lines)
        self.definitions, self.members = {}, {}
        comment, current = [], None
        for line in lines:
            if not line.strip() or line.startswith('use '):
                comment, current = [], None
            elif line.startswith('--'):
                comment.append(line)
            elif line.startswith(' ') and current:
                self.definitions[current].append(line)
            else:
                name = HEAD.match(line).group(2)
                if name not in self.definitions:
                    self.definitions[name] = comment
                self.definitions[name].append(line)
                comment, current = [], name
        for name in self.definitions:
            if self.is_a(name, 'data'):
                self.members |= dict.fromkeys(self.members_of(name), name)
        self.comments = list(self.read_comments(lines))

    def is_a(self, name, *words):
        """Whether a definition is a record, or a data type."""
        heads = [HEAD.match(line) for line in self.definitions[name] if line[:1].strip() and not line.startswith('--')]
        return any(head.group(1) in words for head in heads)

    def members_of(self, name):
        """The fields of a record, or the cases of a data type."""
        return [found.group(1) for found in map(MEMBER.match, self.definitions[name]) if found] if self.is_a(name, 'record', 'data') else []

    def read_comments(self, lines):
        """Each comment as one line of text, with the definition that it stands over, or None for the file, and the field or case of it, or None."""
        comment, current = [], None
        for line in [*lines, '']:
            if line.strip().startswith('--'):
                comment.append(line.strip().lstrip('-').strip())
                continue
            if line[:1].strip() and not line.startswith('use '):
                current = HEAD.match(line).group(2)
            elif not line.startswith(' '):
                current = None
            if comment:
                member = MEMBER.match(line) if current and self.is_a(current, 'record', 'data') else None
                yield current, member and member.group(1), ' '.join(comment)
            comment = []


MODULES = {}


def module(crate, name):
    if (crate, name) not in MODULES:
        MODULES[crate, name] = Module(crate, name)
    return MODULES[crate, name]


def cited(here, crate, text):
    """The definitions that a text of a file cites: (crate, module, name); the module is None for the file's own."""
    for word in set(re.findall(BEGINS + NAME + r'(?:\.' + NAME + r')?', text)):
        first, _, rest = word.partition('.')
        if rest and first in here.aliases:
            yield *here.aliases[first], rest
        for name in {word, first}:
            if name in here.imports:
                yield here.imports[name]
            elif isinstance(here, Module) and (name in here.definitions or name in here.members):
                yield crate, None, name
