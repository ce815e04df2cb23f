"""What each library shows to its callers, item by item, and the definitions of `specs/` that its clauses cite.

It reads sources as `rt tidy` lays them out: an item begins at the margin of what it stands in, and ends where the
next one begins.
"""
import re, textwrap

from sources import ANGLES, LIBRARIES, Repository, read

ITEM = re.compile(r'(pub(?:\(.*?\))? )?(?:const (?=fn|unsafe)|unsafe )*'
                  r'(fn|struct|enum|trait|type|const|ghost(?! use)|mod|macro)(?:_rules!)? (\w+)')
USE = re.compile(r'(pub )?(?:pub\(.*?\) )?use ([^;]*);')
CITED = re.compile(r'(?m)^(?:ghost )?use Rattle\.(\w+)\.specs\.([\w.]+)\.\{([^}]*)\}')
NAME = re.compile(r"(?<![\w.'])([^\W\d][\w-]*)((?:(?:\.|::)\w+)*)(?!\w|\s+[=:]\s)")
BINDER = re.compile(r'λ ([^.]*)\.|[({]([\w ]+) : ')
LINK = re.compile(r'```.*?```|`[^`]*`|\[([^\[\]]+)\](?:\(([^()\s]+)\))?', re.S)
PROOFS = re.compile(r'(also|coded|invariant|inverse|laws|matches|respects|total|view|\w+_law$)')
CLAUSES = ('requires', 'ensures', 'ensures*')


class Item:
    """What has a name: a module, a type, a member of one, a function, a clause, a re-export, a definition, an impl.

    `parts` are the items in it, and `members` those that a path finds there. What is on a page has an `anchor`.
    """

    def __init__(self, kind, name, owner, file, line=1, doc='', text='', attributes='', public=True):
        self.kind, self.name, self.owner, self.file, self.line = kind, name, owner, file, line
        self.doc, self.text, self.head, self.attributes = doc, text, text, attributes
        self.crate, self.public = file.split('/')[1], public and 'doc(hidden)' not in attributes
        self.module, self.path = (owner.module, []) if owner and kind != 'mod' else (self, [*owner.path, name] if owner else [])
        self.parts, self.members, self.uses, self.impls, self.given, self.anchor = [], {}, {}, [], [], None

    def add(self, item):
        self.parts.append(item)
        self.members.setdefault(item.name, item)
        return item

    def url(self):
        return f'{self.crate}.html#{self.anchor}'


def pieces(text, line):
    """The items of a text: each with its line, its doc comment, its text and its attributes."""
    doc, attributes = [], ''
    for piece in re.split(r'(?m)^(?=(?!where\b)[A-Za-z#/])', text):
        if piece.startswith('///'):
            doc.append(piece[3:].split('\n')[0].removeprefix(' '))
        elif piece.startswith('#['):
            attributes += piece.rstrip() + '\n'
        elif piece.strip() and not piece.startswith(('//', '#!')):
            yield line, '\n'.join(doc), piece.rstrip(), attributes
            doc, attributes = [], ''
        line += piece.count('\n')


def inner(item):
    """The text between the braces of an item, from the margin on, and its line."""
    head, _, body = item.text.partition('{')
    return textwrap.dedent(body.rstrip()[:-1]), item.line + head.count('\n')


def paths_of(use):
    """The paths of a `use`, each with the name that it gets."""
    head, _, names = use.partition('{')
    for name in re.findall(r'\w[\w: ]*', names) if names else ['']:
        path, _, other = (head + name).partition(' as ')
        path = path.removesuffix('::self').split('::')
        yield path, other or path[-1]


def bound_in(text):
    """The names that a text binds, each with where it does: up to the end of the brackets around."""
    for of in BINDER.finditer(text):
        depth, end = 0, of.start()
        while end < len(text) and depth >= 0:
            depth += (text[end] in '({[') - (text[end] in ')}]')
            end += 1
        for name in (of[1] or of[2] or '').split():
            yield name, of.start(), end


class Libraries:
    """The items of each library, those that it shows, and its definitions."""

    def __init__(self):
        self.repository, self.roots, self.specs, self.impls, self.shown, self.anchors = Repository(), {}, {}, [], [], set()
        for crate in LIBRARIES:
            self.roots[crate] = self.read_module(Item('mod', crate, None, f'crates/{crate}/src/lib.rt'))
        for path in sorted(self.repository.files):
            if (of := re.fullmatch(r'crates/(\w+)/specs/(\w+)\.antt', path)) and of[1] in self.roots:
                self.specs[of[1], of[2]] = self.read_definitions(Item('specs', of[2], None, path, text=read(path)))
        for impl in self.impls:
            self.read_impl(impl)
        for root in self.roots.values():
            self.place(root)

    # ---- reading ----

    def read_module(self, at):
        at.text = read(at.file)
        at.doc += '\n'.join(re.findall(r'(?m)^//! ?(.*)$', at.text))
        for line, doc, text, attributes in pieces(at.text, 1):
            of, use = ITEM.match(text), USE.match(text)
            if use:
                for path, name in paths_of(use[2]):
                    at.uses[name] = Item('use', name, at, at.file, line, '', path, attributes, bool(use[1]))
            elif text.startswith('impl'):
                self.impls.append(Item('impl', '', at, at.file, line, doc, text, attributes))
            elif of:
                public = of[1] == 'pub ' or 'macro_export' in attributes
                item = at.add(Item(of[2], of[3], at, at.file, line, doc, text, attributes, public))
                if item.kind == 'mod':
                    folder = at.file.removesuffix('.rt') + '/' if at.owner else at.file.removesuffix('lib.rt')
                    item.file, item.line = f'{folder}{item.name}.rt', 1
                    self.read_module(item)
                self.read_parts(item)
        return at

    def read_parts(self, item):
        """The fields of a struct, the variants of an enum, the members of a trait or an impl, a function's clauses."""
        kind = {'struct': 'field', 'enum': 'variant'}.get(item.kind)
        if item.kind == 'fn':
            self.read_contract(item)
        for line, doc, text, attributes in pieces(*inner(item)) if kind or item.kind in ('trait', 'impl') else ():
            if of := re.match(r'(pub )?(?=(\w+))(\w+)', text) if kind else ITEM.match(text):
                part = item.add(Item(kind or of[2], of[3], item, item.file, line, doc, text, attributes))
                self.read_parts(part)
                if item.kind == 'impl' and item.name:  # of a trait: what it adds to that
                    part.public &= bool(part.parts) if part.kind == 'fn' else not PROOFS.match(part.name)
                elif item.kind in ('impl', 'struct'):
                    part.public &= of[1] == 'pub '

    def read_contract(self, item):
        """The signature of a function, and its clauses."""
        head = re.split(r'(?m)^\{', item.text, maxsplit=1)[0].rstrip(' ;\n')
        if not re.search(r'(?m)^ +(?:requires|ensures)\b', head):
            head = re.split(r' \{(?:\}|$)', head, maxsplit=1, flags=re.M)[0]
        item.head, doc = '', ''
        for line in head.split('\n'):
            if of := re.match(r' +((?:requires|ensures)\*?)\s*(\w*)\s*\{ ?(.*)', line):
                item.add(Item(of[1], of[2], item, item.file, item.line, doc, of[3]))
                doc = ''
            elif line.strip().startswith('//'):
                doc += line.strip()[2:]
            elif item.parts:
                item.parts[-1].text += '\n' + line.removeprefix(' ' * 4)
            else:
                item.head += line + '\n'
        for clause in item.parts:
            clause.text = clause.text.rstrip().removesuffix('}').rstrip()

    def read_impl(self, impl):
        """An impl goes to the type, if that is of the same crate, and else to the trait."""
        impl.head = re.split(r'\s*\{', impl.text, maxsplit=1)[0]
        words = ANGLES.sub('', impl.head.replace('->', '')).split('where')[0].split()
        of = self.resolve(impl.module, words[-1].lstrip('&').split('::'))
        by = self.resolve(impl.module, words[1].split('::')) if 'for' in words else None
        impl.name = words[1].split('::')[-1] if 'for' in words else ''
        impl.owner = of if of and of.kind in ('struct', 'enum') and of.crate == impl.crate else by
        self.read_parts(impl)
        for item in {impl.owner, by}:
            if item and item.kind in ('struct', 'enum', 'trait') and impl.public:
                item.impls.append(impl)
                item.members.update({} if impl.name else {part.name: part for part in impl.parts})

    def read_definitions(self, specs):
        """The definitions of a file: from where each begins to the next line that isn't further in, nor its own."""
        waiting, given, at = [], [], None
        specs.doc, specs.anchor = re.sub(r'(?m)^-- ?', '', re.match(r'(?:--.*\n)*', specs.text)[0]), f'specs.{specs.name}'
        for number, line in enumerate(specs.text.split('\n'), 1):
            margin = len(line) - len(line.lstrip())
            word = re.match(r' *(?:(?:abbrev|unfoldable|pub|record|data) )*([^\s(){}:]*)', line)[1]
            if not line.strip() or line.lstrip().startswith('--') and not (at and margin > at.margin):
                waiting.append(line)
                continue
            if at and (margin > at.margin or word == at.name or line.strip() == '}'):
                at.text += '\n'.join(['', *waiting, line])
            elif given and not given[-1][1].endswith('where'):
                given[-1] = given[-1][0], f'{given[-1][1]} {line.strip()}'
            else:
                given, at = [header for header in given if header[0] < margin], None
                if word == 'module':
                    given.append((margin, line.strip()))
                elif word not in ('use', 'mod'):
                    doc = re.sub(r'(?m)^ *-- ?', '', re.search(r'(?:.+\n)*$', '\n'.join([*waiting, '']))[0])
                    at = specs.add(Item('definition', word, specs, specs.file, number, doc, line))
                    at.margin, at.anchor = margin, f'{specs.anchor}.{word}'
                    at.given = [header.removeprefix('module _ ').removesuffix(' where') for _, header in given]
            waiting = []
        return specs

    # ---- names ----

    def lookup(self, item, name):
        """What a name means in a module, a type or a trait."""
        use = item.uses.get(name)
        return item.members.get(name) or use and (self.resolve(item, use.text) or use)

    def resolve(self, at, path):
        """The item that a path names in a module."""
        first = {'crate': self.roots.get(at.crate), 'self': at, 'super': at.owner}.get(path[0]) or self.roots.get(path[0])
        found = first or self.lookup(at, path[0])
        for name in path[1:]:
            found = found and self.lookup(found, name)
        return found

    def cited(self, text):
        """The words that a text's `use` lines at the margin bring in from `specs/`, each with what it means."""
        words = {}
        for crate, path, names in CITED.findall(text):
            module, *way = path.split('.')
            specs = self.specs.get((self.repository.handed_on.get((crate, module), crate), module))
            for name, _, other in (word.strip().partition(' as ') for word in names.split(',')):
                if specs:
                    words[other or name] = specs.members.get(name)
                elif module == 'declared' and crate in self.roots:
                    path = [*way[:-1], name] if way[-1] == 'TheVariants' else way
                    words[other or name] = self.resolve(self.roots[crate], path)
        return words

    def finder(self, item, text, in_contract):
        """How a name at a place of a text means an item, unless that text or the heading of the item binds it."""
        block = item.owner if item.owner and item.owner.kind in ('impl', 'trait') else item
        heads, words = ' '.join(part.text.split('{')[0] for part in (item, block)), {}
        bound = [*bound_in(text), *((name, 0, len(text)) for name in re.findall(r'(\w+): ', heads))]
        if in_contract:
            words = {**self.cited(item.module.text), **(self.cited(inner(block)[0]) if block is not item else {})}
            words.update({of.name: of for of in block.parts if block.kind == 'trait' and of.kind == 'ghost'})
        for name, traits in re.findall(r'(\w+): ([^,()=]*)', heads) if in_contract else ():
            for trait in (self.lookup(item.module, word) for word in re.findall(r'\w+', traits)):
                if trait and trait.kind == 'trait':
                    bound, words[name] = [of for of in bound if of[0] != name], Item('parameter', name, None, item.file)
                    words[name].members = trait.members
        if item.kind == 'definition':
            left = re.findall(rf'(?m)^ *{re.escape(item.name)} (.*?) =(?= |$)', text)
            names = re.findall(r'\b[^\WA-Z]\w*', ' '.join(left)) + [of[0] for given in item.given for of in bound_in(given)]
            bound += [(name, 0, len(text)) for name in [item.name, *names]]

        def find(name, at):
            if not any(name == other and start <= at < end for other, start, end in bound):
                return words.get(name) or self.roots.get(name) or self.lookup(item.module, name)
        return find

    def named(self, item, text, in_contract=True):
        """A text of an item in pieces, each with the item that it names, or None."""
        find, at = self.finder(item, text, in_contract), 0
        for of in NAME.finditer(text):
            found, end = find(of[1], of.start()), of.end(1)
            for step in re.finditer(r'\W+(\w+)', of[2]) if found else ():
                if not self.lookup(found, step[1]):
                    break
                found, end = self.lookup(found, step[1]), of.start(2) + step.end()
            if found and found.anchor is not None and found is not item and found.kind not in ('mod', 'fn', 'specs'):
                yield from ((text[at:of.start()], None), (text[of.start():end], found))
                at = end
        yield text[at:], None

    def links(self, item):
        """The links of a doc comment, each with its path, and the item that it leads to, if that is on a page."""
        for of in LINK.finditer(item.doc) if item.kind not in ('definition', 'specs') else ():
            path = of[2] or of[1] and of[1].startswith('`') and of[1].strip('`')
            if path and not re.match(r'https?://', path):
                found = self.resolve(item.module, path.split('::'))
                yield of, path, found if found and found.anchor is not None else None

    # ---- what is shown ----

    def place(self, root):
        """Gives each item that the callers of a crate reach its place, under the first public module that has it."""
        def public(at):
            return [at] + [below for part in at.parts if part.kind == 'mod' and part.public for below in public(part)]
        root.modules = public(root)
        for at in root.modules:
            self.show(at, '.'.join(at.path) or root.name)
            at.shown = [item for item in at.parts if item.public and item.kind != 'mod']
            for item in at.shown:
                self.show(item, '.'.join([*at.path, item.name]))
        for at in root.modules:
            for use in at.uses.values():
                item = self.lookup(at, use.name)
                if use.public and item.public and item.anchor is None and item.crate == root.name and item.kind != 'mod':
                    at.shown += [item] if item.kind != 'use' else []
                    self.show(item, '.'.join([*at.path, use.name]))

    def show(self, item, anchor):
        """Gives an item and what is in it anchors that nothing else on the page has."""
        item.anchor = anchor
        while (item.crate, item.anchor) in self.anchors:
            item.anchor += '-'
        self.anchors.add((item.crate, item.anchor))
        self.shown.append(item)
        item.impls.sort(key=lambda impl: impl.file != item.file)
        for impl in [item, *item.impls] if item.kind != 'mod' else ():
            if impl.name and impl is not item:
                if impl.owner is item:
                    self.show(impl, f'{anchor}.{impl.name}')
                continue
            for part in impl.parts:
                if part.public:
                    way = [anchor, part.kind.rstrip('*'), part.name] if part.kind in CLAUSES else [anchor, part.name]
                    self.show(part, '.'.join(filter(None, way)))

    def needed(self):
        """The definitions that clauses of public items, views and laws cite, and those that these use."""
        needed, waiting = set(), []

        def reach(found):
            if found and found.kind == 'definition' and found not in needed:
                needed.add(found)
                waiting.append(found)
        ghosts = [part for impl in self.impls for part in impl.parts if part.kind == 'ghost']
        for item in [item for item in self.shown if item.kind in CLAUSES] + ghosts:
            for _, found in self.named(item.owner if item.kind in CLAUSES else item, item.text):
                reach(found)
        while waiting:
            of = waiting.pop()
            words = {**of.owner.members, **self.cited(of.owner.text)}
            for name in re.findall(r'[^\s(){}.,;]+', ' '.join([of.text, *of.given])):
                reach(words.get(name) or words.get(f'◌{name}◌'))
        return needed

    def faults(self):
        """The public items without a doc comment, the links that lead nowhere, and the definitions of `specs/` that belong
        in `specs/inner/`: each with its file and line."""
        needed = self.needed()
        for of in (of for specs in self.specs.values() for of in specs.parts if re.match(r' *(?:abbrev )?pub ', of.text)):
            if of not in needed:
                yield of.file, of.line, f'no public clause, view or law needs `{of.name}`, so it belongs in `specs/inner/`'
        for item in self.shown:
            of_trait = item.kind == 'impl' or item.owner and item.owner.kind == 'impl' and item.owner.name
            if not item.doc and not of_trait and item.kind not in ('use', *CLAUSES):
                yield item.file, item.line, f'the public {item.kind} `{item.name}` has no doc comment'
            above = 1 if item.kind == 'mod' else item.line - (item.attributes + item.doc).count('\n') - 1
            for of, path, found in self.links(item):
                if not found:
                    yield item.file, above + item.doc[:of.start()].count('\n'), f'the link to `{path}` leads nowhere'
