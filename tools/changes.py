"""The changes of one token that a crate's src/ and specs/ have room for, and which are drawn: for mutants.py, which tries them.

A change keeps the types of its line where the declarations tell them (sources.py), since one that is refused for a name or a type
shows nothing. No change is made to a comment, an import, a declared name, a declared type or its arrows, a universe's level or an
array's length; nor in specs/Computing.antt, which is a list of the names that a proof opens.
"""

import collections
import os
import random
import re

import sources

# A token that is changed: what kind of change, the file, the place and the length of what goes, what comes, and the line.
Change = collections.namedtuple('Change', 'kind path line start length new before after')

# A pattern's constructor mostly leaves a case out, which is refused for that alone, so it is drawn less often than the others.
PATTERN, SELDOM = 'a constructor in a pattern', 4

COMPARISONS = {'<': ('<=', '>='), '<=': ('<', '>'), '>': ('>=', '<='), '>=': ('>', '<'),
               '==': ('!=', '<=', '>='), '!=': ('==', '<', '>')}
TESTS = {'leb': ('ltb', 'eqb'), 'ltb': ('leb', 'eqb'), 'eqb': ('leb', 'ltb'), '≤': ('<',), '<': ('≤',),
         'nat_le': ('nat_lt', 'nat_eq'), 'nat_lt': ('nat_le', 'nat_eq'), 'nat_eq': ('nat_le', 'nat_lt')}
CONNECTIVES = {'&&': ('||',), '||': ('&&',), '&': ('|',), '|': ('&',)}
SUMS = {'+': ('-', '*'), '-': ('+',), '*': ('+',), '/': ('%',), '%': ('/',), '+=': ('-=',), '-=': ('+=',),
        '<<': ('>>',), '>>': ('<<',)}
DIRECTIONS = {'CW': 'CCW', 'CCW': 'CW', 'cw': 'ccw', 'ccw': 'cw'}
SIGNS = {'+': '-', '-': '+'}


class Place:
    """A token that may be changed, and what is known there: the names in scope, and the variables with their types. `owner` is the
    function or definition that it belongs to."""

    def __init__(self, world, source, at, names, variables, owner):
        self.world, self.source, self.at = world, source, at
        self.names, self.variables, self.owner = names, variables, owner
        self.token = source.tokens[at]
        self.text = self.token.text

    def near(self, step):
        return self.source.text_at(self.at + step)

    def follows_operand(self):
        """Whether a symbol of Rattle stands between two operands: it is then no reference, no sign and no part of a type."""
        before = self.source.tokens[self.at - 1]
        return before.sort in ('number', 'quoted') or before.text in (')', ']') or (
            before.sort == 'name' and before.text not in ('return', 'in', 'mut', 'as', 'if', 'while', 'match', 'else'))

    def alike(self, sort, same):
        """The other names in scope of this sort for whose types the test holds, in their order. Of its own names a file of antt has
        only those in scope that it declares before; and nothing is put in its own definition, where it would go round."""
        return [name for name, item in sorted(self.names.items())
                if item.sort == sort and name not in (self.text, self.owner) and same(item.type)
                and (item.start is None or item.start < self.token.start)]


# The kinds, each a function from a place to what may stand there. Those of `code` are for Rattle, those of `term` for antt.

def number(place):
    """A whole number by one. That of a level, of a numbered field or of an array's length is none."""
    around = place.near(-1), place.near(1)
    match = re.fullmatch(r'(0x)?([\da-fA-F_]+?)(%s)' % sources.SUFFIX, place.text)
    if place.token.sort != 'number' or not match or around[0] in ('Type', '.') or around in ((';', ']'), ('{', '}')):
        return []
    base = 16 if match.group(1) else 10
    value = int(match.group(2), base)
    return [(match.group(1) or '') + format(value + step, 'x' if base == 16 else 'd') + match.group(3)
            for step in (1, -1) if value + step >= 0]


def code_comparison(place):
    lifetimes = 'lifetime' in (place.source.tokens[place.at - 1].sort, place.source.tokens[place.at + 1].sort)
    return list(COMPARISONS.get(place.text, ())) if place.follows_operand() and not lifetimes else []


def in_scope(place, found):
    """Those that the file imports, an operator by its name with the blanks."""
    return [text for text in found if text in place.names or '◌%s◌' % text in place.names]


def term_comparison(place):
    return in_scope(place, TESTS.get(place.text, ()))


def is_bar(place):
    """Whether a | ends the parameters of a closure, or stands between two patterns: of an arm, or of `matches!`."""
    source, before, after = place.source, place.at - 1, place.at + 1
    while source.tokens[before].sort == 'name' or source.text_at(before) in (',', ':', '&'):
        before -= 1
    if source.text_at(before) == '|' and not Place(place.world, source, before, {}, {}, place.owner).follows_operand():
        return True
    while source.tokens[after].sort in ('number', 'quoted', 'name') and source.text_at(after) != 'if' or (
            source.text_at(after) in ('::', '|', '..', '@', '(', '[') or source.text_at(after) == '{' and source.text_at(after - 1)[:1].isupper()):
        after = source.after(after)
    if source.text_at(after) == ')':
        opening = source.partner.get(after, after)
        return source.text_at(opening - 1) == '!' and source.text_at(opening - 2) == 'matches'
    return source.text_at(after) in ('=>', 'if')


def code_connective(place):
    if not place.follows_operand() or place.text == '|' and is_bar(place):
        return []
    return list(CONNECTIVES.get(place.text, ()))


def term_connective(place):
    return in_scope(place, CONNECTIVES.get(place.text, ()))


def code_truth(place):
    if place.text == '!' and place.token.sort == 'symbol':
        # what follows a name is a macro's
        return [] if place.follows_operand() else ['']
    return {'true': ['false'], 'false': ['true']}.get(place.text, [])


def term_truth(place):
    if place.text == 'not':
        return ['']
    return in_scope(place, {'true': ['false'], 'false': ['true']}.get(place.text, []))


def code_sum(place):
    wrapping = re.fullmatch(r'wrapping_(add|sub)_(\w+)', place.text)
    if wrapping:
        return ['wrapping_%s_%s' % ('sub' if wrapping.group(1) == 'add' else 'add', wrapping.group(2))]
    return list(SUMS.get(place.text, ())) if place.follows_operand() else []


def term_sum(place):
    return in_scope(place, SUMS.get(place.text, ()))


def direction(place):
    other = DIRECTIONS.get(place.text)
    hidden = {other, place.text} & set(place.variables)
    return [other] if other in place.names and place.text in place.names and not hidden and place.near(-1) != '.' else []


def letter(place):
    """A letter, a digit or a sign of a quoted text for another."""
    if place.token.sort != 'quoted':
        return []
    found = []
    opening = place.text.index('"' if '"' in place.text else "'") + 1
    for at in range(opening, len(place.text) - 1):
        here = place.text[at]
        if place.text[at - 1] == '\\' or not here.isascii():
            continue
        if here.isalnum():
            other = chr(ord(here) + (-1 if here in 'zZ9' else 1))
        else:
            other = SIGNS.get(here)
        if other:
            found.append(place.text[:at] + other + place.text[at + 1:])
    return found


def fields_like(world, type_, name, as_type):
    """The other fields of a type's that have the type of this one. Where the type can't be told, those that every type with this
    field has besides."""
    owners = [world.types[type_]] if world.types.get(type_) else [held for held in world.types.values() if name in held]
    found = None
    for held in owners:
        like = [other for other in held if other != name and name in held and as_type(held[other]) == as_type(held[name])]
        found = like if found is None else [other for other in found if other in like]
    return found or []


def bare(type_):
    """The name of a type without its reference and its lifetimes."""
    return re.sub(r"^& (?:'\w+ )?(?:mut )?| <.*", '', type_ or '')


def code_chain(world, source, at, variables):
    """The type of the chain of fields, as m.drive, that ends with the token at a place; None where it can't be told."""
    chain = [source.text_at(at)]
    while source.text_at(at - 1) == '.' and source.tokens[at - 2].sort == 'name':
        at -= 2
        chain.insert(0, source.text_at(at))
    if source.text_at(at - 1) in ('.', '::') or chain[0] not in variables:
        return None
    type_ = variables[chain[0]][0]
    for name in chain[1:]:
        type_ = world.types.get(bare(type_), {}).get(name)
    return type_


def code_field(place):
    if place.token.sort != 'name' or place.near(-1) != '.' or place.near(1) == '(':
        return []
    known = place.source.tokens[place.at - 2].sort == 'name'
    type_ = code_chain(place.world, place.source, place.at - 2, place.variables) if known else None
    return fields_like(place.world, bare(type_), place.text, bare)


def term_chain(place):
    """The type of what a field is taken of: a name, or an application in brackets, and fields of that."""
    source, at = place.source, place.at - 1
    while source.tokens[at].sort == 'field':
        at -= 1
    head = source.text_at(source.partner[at] + 1 if at in source.partner else at)
    if head in place.variables:
        type_ = place.variables[head]
    else:
        item = place.names.get(head)
        type_ = item.type if item and item.sort == 'definition' else None
    for token in source.tokens[at + 1:place.at]:
        type_ = place.world.types.get(sources.given(type_), {}).get(token.text[1:]) if type_ else None
    return sources.given(type_) if type_ else None


def term_field(place):
    if place.token.sort != 'field':
        return []
    like = fields_like(place.world, term_chain(place), place.text[1:], sources.plain)
    return ['.' + name for name in like]


def is_pattern(source, at):
    """Whether the constructor of Rattle at a place stands in a pattern: of an arm, an `if let` or a `let`."""
    after = at + 1
    if source.text_at(after) in ('(', '{'):
        after = source.after(after)
    return source.text_at(after) in ('=>', '=', '|')


def code_variants(place, pattern):
    """A variant of an enum for another that takes the same: in a pattern, or where a value is made."""
    held = place.world.enums.get(place.near(-2), {}) if place.near(-1) == '::' else {}
    if place.text not in held or is_pattern(place.source, place.at) != pattern:
        return []
    return [name for name in held if name != place.text and held[name] == held[place.text]]


def term_constructor(place):
    item = place.names.get(place.text)
    if not item or item.sort != 'constructor':
        return []
    return place.alike('constructor', lambda type_: type_ == item.type)


def term_name(place, function):
    """A name for another of its type: of a function, or of a constant."""
    item = place.names.get(place.text)
    if not item or item.sort != 'definition' or place.text in place.variables:
        return []
    is_function = len(sources.arrows(item.type)) > 1
    return place.alike('definition', lambda type_: type_ == item.type) if is_function == function else []


def code_constant(place):
    item = place.names.get(place.text)
    if not item or item.sort != 'const' or place.near(-1) == '.':
        return []
    return place.alike('const', lambda type_: type_ == item.type)


def code_function(place):
    item = place.names.get(place.text)
    if not item or item.sort != 'function' or place.near(1) != '(' or place.near(-1) in ('.', '::'):
        return []
    return place.alike('function', lambda type_: type_ == item.type)


def code_variable(place):
    """A parameter or local for another. What names a field in a literal is none."""
    if place.text not in place.variables or place.near(-1) in ('.', '::', 'let', 'mut') or place.near(1) in ('(', ':', '::'):
        return []
    if place.near(-1) in ('{', ',') and place.near(1) in (',', '}') and place.source.in_literal(place.at):
        return []
    type_, _ = place.variables[place.text]
    return [name for name, (other, declared) in place.variables.items()
            if type_ and other == type_ and name != place.text and declared <= place.at]


def term_variable(place):
    type_ = place.variables.get(place.text)
    if not type_ or place.token.sort != 'name':
        return []
    return [name for name, other in place.variables.items() if name != place.text and other == type_]


def binds(source, at):
    """Whether antt binds or names the word at a place: after λ, before the colon of a group, or before =, as in a let or a record."""
    if source.text_at(at + 1) in ('=', ':') or source.text_at(at - 1) == 'λ':
        return True
    after = at
    while source.tokens[after].sort == 'name' and after + 1 < len(source.tokens):
        after += 1
    before = at
    while before > 0 and source.tokens[before].sort == 'name':
        before -= 1
    return source.text_at(after) == ':' and source.text_at(before) == '('


CODE = (('a number', number), ('a comparison', code_comparison), ('a connective', code_connective), ('a truth value', code_truth),
        ('arithmetic', code_sum), ('a direction', direction), ('a letter', letter), ('a field', code_field),
        ('a constructor', lambda place: code_variants(place, False)), (PATTERN, lambda place: code_variants(place, True)),
        ('a constant', code_constant), ('a function', code_function), ('a variable', code_variable))
TERM = (('a number', number), ('a comparison', term_comparison), ('a connective', term_connective), ('a truth value', term_truth),
        ('arithmetic', term_sum), ('a direction', direction), ('a letter', letter), ('a field', term_field),
        ('a constructor', term_constructor), ('a constant', lambda place: term_name(place, False)),
        ('a function', lambda place: term_name(place, True)), ('a variable', term_variable))
IN_PATTERN = ((PATTERN, term_constructor),)


# Where changes may be made.

def type_of_initial(world, source, first, last, names, variables):
    """The type of what a local begins with: a variable or a field, or a call; None where it can't be told."""
    if all(token.sort == 'name' or token.text == '.' for token in source.tokens[first:last]):
        return code_chain(world, source, last - 1, variables)
    item = names.get(source.text_at(first))
    called = item and item.sort == 'function' and source.text_at(first + 1) == '(' and source.after(first + 1) == last
    return item.type[1] if called else None


def variables_of(world, source, function, names):
    """The parameters and locals of a function with their types, and where among the tokens each is declared."""
    found = {name: (type_, function.body[0]) for name, type_ in function.parameters.items()}
    for at in range(*function.body):
        if source.text_at(at) == 'let':
            name = at + 2 if source.text_at(at + 1) == 'mut' else at + 1
            equals = source.find(name, '=', ';')
            end = source.find(equals, ';')
            if source.text_at(name + 1) == ':':
                found[source.text_at(name)] = (source.join(name + 2, equals), end)
            elif equals == name + 1:
                found[source.text_at(name)] = (type_of_initial(world, source, equals + 1, end, names, found), end)
    return found


def code_places(world, source):
    """The places of a file of Rattle, each with the kinds of change that it may have."""
    names, terms = world.code_names(source), world.term_names(source)
    for name, _, first, last in sources.constants(source):
        for at in range(first, last):
            yield Place(world, source, at, names, {}, name), CODE
    for function in sources.functions(source):
        facts = {name: sources.plain(type_) for name, type_ in function.parameters.items()}
        facts['result'] = sources.plain(function.result)
        for at in range(*function.contracts):
            if source.tokens[at].fact and not binds(source, at):
                yield Place(world, source, at, terms, facts, function.name), TERM
        variables = variables_of(world, source, function, names)
        for at in range(*function.body):
            yield Place(world, source, at, names, variables, function.name), CODE


def atoms(source, first, last):
    """The words and groups of a pattern, first and last of each."""
    while first < last:
        yield first, source.after(first)
        first = source.after(first)


def pattern_variables(source, first, last, type_, names):
    """The variables of a pattern, and the types of those that it tells."""
    if source.text_at(first) == '(' and source.after(first) == last:
        first, last = first + 1, last - 1
    parts = list(atoms(source, first, last))
    word = source.text_at(first)
    if [source.text_at(at) for at, _ in parts[1::2]] == ['∷'] * (len(parts) // 2) and len(parts) > 1:
        element = re.sub(r'^\( (.*) \)$', r'\1', type_[len('List '):]) if type_.startswith('List ') else ''
        inner = [(part, element) for part in parts[:-1:2]] + [(parts[-1], type_)]
    elif len(parts) == 1:
        return {} if word in names and names[word].sort in ('constructor', 'other') else {word: type_}
    elif word == 'suc':
        inner = [(parts[1], 'ℕ')]
    else:
        taken = names[word].type[1] if word in names and names[word].sort == 'constructor' else ()
        inner = zip(parts[1:], taken)
    found = {}
    for (begin, end), each in inner:
        found.update(pattern_variables(source, begin, end, each, names))
    return found


def term_places(world, source):
    """The places of a file of antt: in what its records state, and on both sides of its equations."""
    names = world.term_names(source)
    for line in sources.lines(source):
        if line.sort == 'field':
            variables = dict(line.around, **sources.binders(source, line.first, line.last))
            for at in range(line.first + 2, line.last):
                if not binds(source, at):
                    yield Place(world, source, at, names, variables, line.name), TERM
        elif line.sort == 'equation':
            equals = source.find(line.first, '=')
            variables = dict(line.around)
            types = sources.arrows(names[line.name].type) if line.name in names and names[line.name].type else []
            for (first, last), type_ in zip(atoms(source, line.first + 1, equals), types):
                variables.update(pattern_variables(source, first, last, type_, names))
            for at in range(line.first + 1, equals):
                yield Place(world, source, at, names, {}, line.name), IN_PATTERN
            for at in range(equals + 1, line.last):
                if not binds(source, at):
                    yield Place(world, source, at, names, variables, line.name), TERM


def changed(place, kind, new):
    """The change of a place. A word that goes takes its blank along."""
    source, start = place.source, place.token.start
    length = len(place.text)
    if not new and source.text[start + length] == ' ':
        length += 1
    first = source.text.rfind('\n', 0, start) + 1
    last = source.text.find('\n', start)
    after = source.text[first:start] + new + source.text[start + length:last]
    return Change(kind, source.path, place.token.line, start, length, new, source.text[first:last], after)


def all_changes(root, crate):
    """The changes that a crate has room for: for each kind a list of places, and for each place a list of changes."""
    world = sources.World(root)
    found = collections.defaultdict(list)
    for source in sources.files(root, crate):
        if source.path.endswith(os.path.join('specs', 'Computing.antt')):
            continue
        for place, kinds in (code_places if source.rattle else term_places)(world, source):
            for kind, others in kinds:
                changes = [changed(place, kind, new) for new in others(place)]
                if changes:
                    found[kind].append(changes)
                    break
    return found


def draw(found, count, seed):
    """So many of the changes, or all where there are fewer. The kind is drawn first, so that the many numbers do not drown the
    rest; and no place comes twice before every other place of its kind came."""
    chance = random.Random(seed)
    waiting = {}
    for kind in sorted(found):
        places = [chance.sample(changes, len(changes)) for changes in found[kind]]
        chance.shuffle(places)
        waiting[kind] = collections.deque(places)
    drawn = []
    while waiting and len(drawn) < count:
        kind = chance.choice([kind for kind in waiting for _ in range(1 if kind == PATTERN else SELDOM)])
        changes = waiting[kind].popleft()
        drawn.append(changes.pop())
        if changes:
            waiting[kind].append(changes)
        if not waiting[kind]:
            del waiting[kind]
    return drawn
