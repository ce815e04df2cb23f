"""What there is in this repository: files, crates, and the names that its sources define."""
import os, re, types

TOP = os.path.dirname(os.path.dirname(os.path.abspath(__file__)))
LIBRARIES = ['wasmi_' + name for name in 'arena dense map_specs ordered hashed interner collections script_lib module link_lib'.split()]
WORD = re.compile(r'[^\W\d][\w-]*')
ANGLES = re.compile(r'<(?:[^<>]|<(?:[^<>]|<[^<>]*>)*>)*>')


def read(path):
    with open(os.path.join(TOP, path), encoding='utf-8') as file:
        return file.read()


class Repository:
    def __init__(self):
        self.files, self.functions, self.members, self.ghosts, self.imports = set(), [], {}, {}, {}
        for base, folders, files in os.walk(TOP):
            folders[:] = [f for f in folders if f not in ('.git', 'out', 'target', '__pycache__')]
            self.files |= {os.path.normpath(os.path.join(os.path.relpath(base, TOP), f)) for f in files}
        self.paths, self.ends = self.files | {f[:k] for f in self.files for k, c in enumerate(f) if c == '/'} | {'.'}, {}
        for path in self.paths:
            crate = path.split('/')[1] if path.startswith('crates/') else None
            for k in [k + 1 for k, c in enumerate(path) if c == '/']:
                self.ends.setdefault(path[k:], set()).add(crate)
        self.crates = {line.split()[0].rstrip(':'): line for line in read('crates.txt').splitlines()}
        lines = [line for line in read('checks/words').split('\n') if not line.startswith('#')]
        self.words = {word for line in lines for word in ([line[2:]] if line.startswith(': ') else line.split())}
        self.names, self.exported, self.types = {*self.crates, *self.words}, {crate: {'lib'} for crate in self.crates}, set()
        self.private, self.handed_on = set(), {}
        for path in sorted(self.files):
            self.names |= {part.split('.')[0] for part in path.split('/')}
            if path.startswith('crates/') and path.endswith('.rt'):
                self.source(path, path.split('/')[1])
            elif path.endswith('.antt'):
                text = re.sub(r'--.*', '', read(path))
                before = r'(?:(?:abbrev|unfoldable|pub|record|data|mod(?:ule)?) )+'
                self.names.update(re.findall(rf'(?m)^\s*{before}([^\s(){{}}:]+)', text))
                self.names.update(re.findall(r'(?m)^\s*([^\s(){}:=]+)\s*:\s', text))
                self.names.update(WORD.findall(' '.join(re.findall(r'(?m)^use (?!Rattle\.wasmi_).*', text))))
                for other, module in re.findall(r'(?m)^pub use Rattle\.(wasmi_\w+)\.specs\.(\w+)$', text):
                    self.handed_on[path.split('/')[1], module] = other
        self.tests = {}  # the crates that have a test of this name
        for f in (f for f in self.functions if f.test):
            self.tests.setdefault(f.name, set()).add(f.crate)
        self.by_crate = {crate: [f for f in self.functions if f.crate == crate] for crate in self.crates}
        for f in self.functions:
            way = {f.kind or f.name, f.file.split('/')[3].split('.')[0]}
            f.public = bool(f.trait) and (f.crate, f.kind) not in self.private or f.public and (f.crate not in LIBRARIES or not way.isdisjoint(self.exported[f.crate]))

    def source(self, path, crate):
        text, at, attributes = re.sub(r'(?m)^\s*//.*$', '', read(path)), 0, ''
        for uses in re.findall(r'(?m)^\s*(?:pub(?:\(.*?\))? )?(?:ghost )?use [^;]*;', text):
            self.names.update(() if re.search(r'use (Rattle\.wasmi_|wasmi_|crate\b|super\b)', uses) else WORD.findall(uses))
            self.exported[crate].update(WORD.findall(uses) if uses.strip().startswith('pub use') else ())
            of = re.match(r'\s*ghost use Rattle\.(\w+)\.specs\.((?:inner\.)?[A-Z]\w*)\.\{([^}]*)\}', uses)
            if of and of[1] in LIBRARIES:
                from_crate = self.handed_on.get((of[1], of[2]), of[1])
                self.imports.setdefault(path, {}).update({word.strip(): (from_crate, of[2]) for word in of[3].split(',')})
        self.exported[crate].update(re.findall(r'(?m)^pub mod (\w+)', text))
        self.names.update(re.findall(r'\b(?:macro_rules!|mod) (\w+)', text), re.findall(r'(?m)^ +(?:pub )?(\w+): ', text))
        if crate in ('wasmi_replay', 'wasmi_script_lib') or path.endswith('/error.rt'):  # the words of lines and errors
            self.names.update(WORD.findall(' '.join(re.findall(r'"((?:[^"\\\n])*)"', text))))
        for piece in re.split(r'(?m)^(?=(?!where)[a-z#])', text):
            self.item(path, crate, piece, '#[test]' in attributes, text[:at].count('\n') + 1)
            attributes, at = attributes + piece if piece.startswith('#') else '', at + len(piece)

    def item(self, path, crate, text, test, line):
        of = re.match(r'(pub )?(?:pub\(.*?\) )?(?:\w+ )*?(?:(fn|struct|enum|trait|type|impl)\b ?)(\w+)?', text)
        what, kind, trait = (of[2], of[3], of[3] if of[1] and of[2] == 'trait' else None) if of else (None, None, None)
        if what == 'impl':
            head = ANGLES.sub('', text.split('{')[0].replace('->', '')).split('where')[0].split('impl', 1)[1].split(' for ')
            kind, trait = WORD.findall(head[-1])[0], WORD.findall(head[0])[-1] if len(head) == 2 else None
        elif what and what != 'fn':
            self.types.add(kind)
            self.private |= set() if of[1] else {(crate, kind)}
        says = re.compile(r'(?ms)^    ghost (?!laws|total|matches|respects)\w+ = \{.*?\};')  # the others are proofs
        ghosts = '' if trait in (None, 'Model') else ' '.join(says.findall(text))
        for part in re.split(r'(?m)^(?=(?:    )?(?:pub(?:\(.*?\))? )?(?:const |unsafe )*fn )', text):
            if of := re.match(r'( *)(pub(?:\(.*?\))? )?(?:const |unsafe )*fn (\w+)', part):
                head = part.split(f'\n{of[1]}{{')[0]
                self.functions.append(types.SimpleNamespace(
                    crate=crate, file=path, kind=None if what == 'fn' else kind, trait=trait, name=of[3], test=test,
                    cited=set(WORD.findall(ghosts + re.sub(r'(?s)^.*?(?:\bensures|\brequires|$)', ' ', head, count=1))),
                    public=of[2] == 'pub ',
                    clauses=set(re.findall(r'\b(?:ensures|requires)\*?\s*(\w*)\s*\{', head)), line=line))
                self.names |= self.functions[-1].clauses | {of[3]}
            line += part.count('\n')
        self.ghosts.setdefault(crate, set()).update(re.findall(r'(?m)^    ghost (\w+) =', text))
        members = re.findall(r'(?m)^    (?:pub(?:\(.*?\))? )?(?:(?:ghost|const|type|unsafe|fn) )*(\w+)(?=[:,(<]| =| \{|$)', text)
        self.members.setdefault(kind, set()).update(members)
        self.names.update(members, filter(None, (kind, trait)))
