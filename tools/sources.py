"""What the sources of the crates declare: for changes.py, which changes a token for another that fits in its place.

A source is a file of src/, in Rattle, or one of specs/, in antt; a clause of a Rattle contract has antt between its braces. Both are
read as far as it takes to tell the type of a name where that is easy. What can't be told is left out, and no fault: a change is then not
offered, or it is refused for a name or a type.
"""

import collections
import os
import re

# Sorts: name, number, quoted, field (antt's `.name`), symbol. A token is a fact where it stands between the braces of a clause.
Token = collections.namedtuple('Token', 'sort text start line column fact')
# What a name is: a const, function, definition or constructor, or other, and its type: a text, or for a function its signature. Of
# a constructor the type is what it belongs to and what it takes. `start` is where a file declares it for itself.
Item = collections.namedtuple('Item', 'sort type start')
# A function of Rattle: its parameters and their types, its result's, and where its contracts and its body stand among the tokens.
Function = collections.namedtuple('Function', 'name parameters result contracts body')
# A record, a data type or a module of antt: the column that it begins at, which of these it is, its name, and the names that it
# binds with their types.
Block = collections.namedtuple('Block', 'column sort name bound')
# A line of antt with what continues it: a field, a constructor, a definition or an equation; the name of its type, or its own; where it
# stands among the tokens; and the names that the blocks around it bind.
Line = collections.namedtuple('Line', 'sort name first last around')

SUFFIX = r'(?:[iu](?:8|16|32|64|size)|f32|f64)?'
RATTLE = re.compile(r'''
    (?P<comment>//[^\n]*)
  | (?P<quoted>b?"(?:[^"\\]|\\.)*"|b'(?:[^'\\]|\\.)')
  | (?P<number>(?:0x[\da-fA-F_]+|\d[\d_]*(?:\.\d+)?)%s)
  | (?P<lifetime>'\w+)
  | (?P<name>[^\W\d]\w*)
  | (?P<symbol>::|->|=>|\.\.=?|<<|>>|[-+*/%%&|<>=!]=|&&|\|\||\S)
''' % SUFFIX, re.VERBOSE)
WORD = r'[^\s(){};,".]+'
# A word that begins with a capital may be a module's, and what follows its dots a name there; what follows those of another is a field.
ANTT = re.compile(r'''
    (?P<comment>--[^\n]*)
  | (?P<quoted>"(?:[^"\\]|\\.)*")
  | (?P<field>(?<=\S)\.[^\W\d][^\s(){};,".]*)
  | (?P<name>[A-Z]%s(?:\.%s)+|[A-Z](?:\.%s)+|%s)
  | (?P<symbol>\S)
''' % (WORD, WORD, WORD, WORD), re.VERBOSE)
NUMERAL = re.compile(r'\d+|0x[\da-fA-F]+')
CLOSING = {'(': ')', '[': ']', '{': '}'}
CLAUSES = ('requires', 'ensures')
MODIFIERS = ('abbrev', 'unfoldable', 'pub', 'opaque')
# What is declared in each block.
DECLARED_IN = {'record': 'field', 'data': 'constructor', 'module': 'definition'}
WHOLE = re.compile(r'[ui](?:8|16|32|64|size)')
# The names of antt's library whose types matter here; of the others it is only known that they are in scope.
LIBRARY = {'min': 'ℕ → ℕ → ℕ', 'max': 'ℕ → ℕ → ℕ', 'take': 'ℕ → List A → List A', 'drop': 'ℕ → List A → List A'}


def lexed(text, pattern, start=0, end=None, fact=False):
    """The tokens of a text; those of a contract's clauses are antt's. A clause is a word, a name perhaps, and a group in braces."""
    end, clause = len(text) if end is None else end, False
    match = pattern.search(text, start, end)
    while match:
        sort, after = match.lastgroup, match.end()
        if sort != 'comment':
            if pattern is ANTT and NUMERAL.fullmatch(match.group()):
                sort = 'number'
            line, column = text.count('\n', 0, match.start()) + 1, match.start() - text.rfind('\n', 0, match.start()) - 1
            yield Token(sort, match.group(), match.start(), line, column, fact)
            if clause and match.group() == '{':
                after = closing_brace(text, after, end)
                yield from lexed(text, ANTT, match.end(), after, True)
            clause = pattern is RATTLE and (match.group() in CLAUSES or clause and sort == 'name')
        match = pattern.search(text, after, end)


def closing_brace(text, at, end):
    """Where the brace stands that closes the group which begins here."""
    depth = 1
    while at < end:
        depth += (text[at] == '{') - (text[at] == '}')
        if not depth:
            break
        at += 1
    return at


def partners(tokens):
    """For each opening bracket where its closing one stands, and the other way round."""
    found, still_open = {}, []
    for at, token in enumerate(tokens):
        if token.sort == 'symbol' and token.text in CLOSING:
            still_open.append(at)
        elif token.sort == 'symbol' and still_open and token.text == CLOSING[tokens[still_open[-1]].text]:
            found[at] = still_open.pop()
            found[found[at]] = at
    return found


class Source:
    """A file: its crate and its module there, its text and tokens, and what it imports: a module and a name each, the module's parts
    for Rattle and its text for antt."""

    def __init__(self, root, crate, path):
        self.crate, self.path, self.rattle = crate, path, path.endswith('.rt')
        with open(os.path.join(root, path), encoding='utf-8', newline='') as file:
            self.text = file.read()
        inner = os.path.splitext(path)[0].split(os.sep)[3:]
        self.module = (crate,) + tuple(inner if inner not in (['lib'], ['main']) else [])
        self.tokens = list(lexed(self.text, RATTLE if self.rattle else ANTT))
        self.partner = partners(self.tokens)
        self.imports = list(self.imported())

    def imported(self):
        ends = r'([^;]+);' if self.rattle else r'([^\n]+)'
        for ghost, path in re.findall(r'^[ \t]*(?:pub )?(ghost )?use ' + ends, self.text, re.MULTILINE):
            if self.rattle and not ghost:
                module, _, names = path.partition('::{') if '::{' in path else path.rpartition('::')
                module = tuple((self.crate if part == 'crate' else part) for part in module.split('::'))
                for name in names.rstrip('} \n').split(','):
                    if name.strip():
                        yield module, name.split(' as ')[-1].strip()
            elif '.{' in path:
                module, _, names = path.partition('.{')
                for name in names.rstrip('} ').split(', '):
                    yield module, name.split(' as ')[-1].strip()

    def after(self, at):
        """Where the token stands that follows this one, or the group that it opens."""
        return self.partner[at] + 1 if self.text_at(at) in CLOSING and at in self.partner else at + 1

    def text_at(self, at):
        return self.tokens[at].text if 0 <= at < len(self.tokens) else ''

    def find(self, at, *stops):
        """The first of these tokens from a place on, outside of any brackets that open after it."""
        while at < len(self.tokens) and self.tokens[at].text not in stops:
            at = self.after(at)
        return at

    def in_literal(self, at):
        """Whether a token stands right in the braces of a struct's literal, as `Limits { cw, ccw }`."""
        at -= 1
        while at > 0 and self.text_at(at) not in CLOSING:
            at = self.partner.get(at, at) - 1
        return self.text_at(at) == '{' and self.text_at(at - 1)[:1].isupper()

    def join(self, first, last):
        return ' '.join(token.text for token in self.tokens[first:last])

    def parts(self, opening):
        """What stands between the commas of a group: first and last of each."""
        at, end = opening + 1, self.partner[opening]
        while at < end:
            stop = min(self.find(at, ','), end)
            yield at, stop
            at = stop + 1


# Rattle.

def named_types(source, opening):
    """The names and types of a group: of parameters or of fields."""
    found = {}
    for first, last in source.parts(opening):
        colon = source.find(first, ':')
        if colon < last:
            found[source.text_at(colon - 1)] = source.join(colon + 1, last)
    return found


def variants(source, opening):
    """The variants of an enum, each with what it takes: the names of its fields, which may have none, and their types."""
    found = {}
    for first, last in source.parts(opening):
        held = ((), ())
        if first + 1 < last and source.text_at(first + 1) == '(':
            types = tuple(source.join(*part) for part in source.parts(first + 1))
            held = (tuple('' for _ in types), types)
        elif first + 1 < last and source.text_at(first + 1) == '{':
            fields = named_types(source, first + 1)
            held = (tuple(fields), tuple(fields.values()))
        found[source.text_at(first)] = held
    return found


def past_types(source, at):
    """Where a function's own types, which stand between < and > and may have brackets, have ended; the place itself if it has none."""
    depth = source.text_at(at).count('<')
    while depth and at < len(source.tokens):
        at += 1
        text = source.text_at(at)
        depth += len(text) if text in ('<', '<<') else -len(text) if text in ('>', '>>') else 0
    return at


def function(source, at):
    """The function whose name stands at a place."""
    opening = source.find(past_types(source, at + 1), '(')
    arrow = source.after(opening)
    after = source.find(arrow, *CLAUSES, '{', ';')
    result = source.join(arrow + 1, after) if source.text_at(arrow) == '->' else ''
    body = after
    while source.text_at(body) in CLAUSES:
        body = source.after(source.find(body, '{'))
    end = source.partner.get(body, body)
    return Function(source.text_at(at), named_types(source, opening), result, (after, body), (body, end))


def functions(source):
    """The functions of a file, in their order."""
    for at, token in enumerate(source.tokens):
        if token.text == 'fn' and not token.fact:
            yield function(source, at + 1)


def constants(source):
    """The name of each constant, its type, and where its value stands."""
    for at, token in enumerate(source.tokens):
        if token.text == 'const' and not token.fact:
            equals = source.find(at, '=')
            yield source.text_at(at + 1), source.join(at + 3, equals), equals + 1, source.find(equals, ';')


# antt.

def arrows(type_):
    """What a type takes and gives, one after the other. A binder of several names takes as many."""
    parts, depth = [[]], 0
    for word in type_.split():
        depth += (word in ('(', '{')) - (word in (')', '}'))
        if word == '→' and not depth:
            parts.append([])
        else:
            parts[-1].append(word)
    found = []
    for part in parts:
        if part[:1] == ['('] and ':' in part:
            found += [' '.join(part[part.index(':') + 1:-1])] * (part.index(':') - 1)
        else:
            found.append(' '.join(part))
    return found


def given(type_):
    """What a type gives once it has all that it takes."""
    return arrows(type_)[-1]


def plain(type_):
    """The type that antt has for one of Rattle; antt's own stay."""
    if WHOLE.fullmatch(type_):
        return 'ℕ'
    return {'bool': 'Bool'}.get(type_, type_)


def binders(source, first, last):
    """The names that are bound in groups, as (t line : List ℕ), and their types."""
    found = {}
    for at in range(first, last):
        if source.text_at(at) == '(' and at in source.partner:
            colon = source.find(at + 1, ':')
            if colon < source.partner[at] and all(token.sort == 'name' for token in source.tokens[at + 1:colon]):
                for token in source.tokens[at + 1:colon]:
                    found[token.text] = source.join(colon + 1, source.partner[at])
    return found


def spans(source):
    """The lines with what continues them, first and last token of each: what is indented deeper than a line continues it, unless
    that line opens a block."""
    tokens, first = source.tokens, 0
    for at in range(1, len(tokens) + 1):
        begins = at == len(tokens) or tokens[at].line > tokens[at - 1].line and (
            tokens[at].column <= tokens[first].column or tokens[at - 1].text == 'where')
        if begins:
            yield first, at
            first = at


def lines(source):
    """The fields, constructors, definitions and equations of an antt file."""
    blocks = []
    for first, last in spans(source):
        column = source.tokens[first].column
        while blocks and column <= blocks[-1].column:
            blocks.pop()
        around = {name: type_ for block in blocks for name, type_ in block.bound.items()}
        while source.text_at(first) in MODIFIERS:
            first += 1
        word = source.text_at(first)
        if word in DECLARED_IN:
            blocks.append(Block(column, word, source.text_at(first + 1), binders(source, first, last)))
        elif word in ('use', 'mod', 'unfolding'):
            continue
        elif source.text_at(first + 1) == ':':
            sort = DECLARED_IN[blocks[-1].sort if blocks else 'module']
            yield Line(sort, word if sort == 'definition' else blocks[-1].name, first, last, around)
        elif source.find(first, '=') < last:
            yield Line('equation', word, first, last, around)


# All crates.

def files(root, crate):
    """The files of a crate's src/ and specs/, in the order of their names."""
    for part, ending in (('src', '.rt'), ('specs', '.antt')):
        found = []
        for folder, _, names in os.walk(os.path.join(root, 'crates', crate, part)):
            found += [os.path.relpath(os.path.join(folder, name), root) for name in names if name.endswith(ending)]
        for path in sorted(found):
            yield Source(root, crate, path)


class World:
    """What all crates declare: the fields of each struct and record and the variants of each enum and data type by its name, where
    only one type has that name, and the other items by their module and name."""

    def __init__(self, root):
        self.types, self.enums, self.items = {}, {}, {}
        for crate in sorted(os.listdir(os.path.join(root, 'crates'))):
            for source in files(root, crate):
                if source.rattle:
                    self.read_rattle(source)
                else:
                    self.read_antt(source)

    def declare(self, found, name, held):
        """A second type of one name hides both."""
        found[name] = held if name not in found else {}

    def read_rattle(self, source):
        for name, type_, _, _ in constants(source):
            self.items[source.module + (name,)] = Item('const', type_, None)
        for each in functions(source):
            signature = (tuple(each.parameters.values()), each.result)
            self.items[source.module + (each.name,)] = Item('function', signature, None)
        for at, token in enumerate(source.tokens):
            if token.text in ('struct', 'enum') and not token.fact:
                opening = source.find(at, '{', ';')
                if opening in source.partner and token.text == 'struct':
                    self.declare(self.types, source.text_at(at + 1), named_types(source, opening))
                elif opening in source.partner:
                    self.declare(self.enums, source.text_at(at + 1), variants(source, opening))

    def read_antt(self, source):
        place = ('specs',) + source.module
        records = collections.defaultdict(dict)
        data = collections.defaultdict(dict)
        for line in lines(source):
            word, type_ = source.text_at(line.first), source.join(line.first + 2, line.last)
            if line.sort == 'definition':
                self.items[place + (word,)] = Item('definition', type_, source.tokens[line.first].start)
            elif line.sort == 'field':
                records[line.name][word] = type_
            elif line.sort == 'constructor':
                taken = tuple(arrows(type_)[:-1])
                data[line.name][word] = (tuple('' for _ in taken), taken)
                self.items[place + (word,)] = Item('constructor', (line.name, taken), source.tokens[line.first].start)
        for name, held in records.items():
            self.declare(self.types, name, held)
        for name, held in data.items():
            self.declare(self.enums, name, held)

    def code_names(self, source):
        """The constants and functions that are in scope in a file of Rattle."""
        names = {path[-1]: item for path, item in self.items.items() if path[:-1] == source.module}
        for module, name in source.imports:
            if isinstance(module, tuple) and module + (name,) in self.items:
                names[name] = self.items[module + (name,)]
        return names

    def term_names(self, source):
        """The names of antt that are in scope in a file: those that it imports, and those of its own that it declares."""
        names = {}
        for module, name in source.imports:
            if not isinstance(module, tuple):
                names[name] = self.imported(module, name)
        if not source.rattle:
            place = ('specs',) + source.module
            names.update({path[-1]: item for path, item in self.items.items() if path[:-1] == place})
        return names

    def imported(self, module, name):
        """What a name is that antt imports from a module."""
        parts = module.split('.')
        if parts[-1] == 'TheVariants' and name in self.enums.get(parts[-2], {}):
            return Item('constructor', (parts[-2], tuple(plain(type_) for type_ in self.enums[parts[-2]][name][1])), None)
        if parts[0] == 'Rattle' and len(parts) > 2:
            inner = tuple(parts[len(parts) - parts[::-1].index('specs'):]) if 'specs' in parts else ()
            item = self.items.get(('specs', parts[1]) + inner + (name,))
            return item._replace(start=None) if item else Item('other', None, None)
        return Item('definition', LIBRARY[name], None) if name in LIBRARY else Item('other', None, None)
