"""mutations: every small change of a C source, for tools/mutants.py.

Each comparison, operator, constant and named constant replaced, each condition turned round, each statement and label taken
away. The sources are ours: C without strings, without gotos, and with braces in the house's way.
"""
import collections
import re

# What is no token: layout and comments.
SKIPPED = r'\s+|\\\n|/\*.*?\*/'
TOKEN = re.compile(rf'(?P<skipped>{SKIPPED})|(?P<word>[A-Za-z_]\w*)|(?P<number>0[xX][0-9A-Fa-f]+|\d+)|'
                   r'(?P<sign>->|\+\+|--|<<=|>>=|<<|>>|&&|\|\||[-+*/|&^<>=!]=|.)', re.S)
DIRECTIVE = re.compile(r'^#(?:\\\n|[^\n])*', re.M)
DEFINITION = re.compile(r'#define (\w+)(?:\([^)]*\))?')
NO_STATEMENT = {'if', 'else', 'for', 'while', 'switch', 'case', 'default', 'const', 'static', 'struct', 'enum', 'bool'}
ENDS_OPERAND = re.compile(r'\w+$|[\])]$')
# What stands in place of an operator or a constant of the language.
INSTEAD = {
    '==': ['!=', '<=', '>='], '!=': ['==', '<', '>'], '<': ['<=', '!=', '>='], '>': ['>=', '!=', '<='],
    '<=': ['<', '==', '>'], '>=': ['>', '==', '<'],
    '+': ['-'], '-': ['+'], '*': ['/', '+'], '/': ['*'], '%': ['/'], '&': ['|', '^'], '|': ['&', '^'], '<<': ['>>'], '>>': ['<<'],
    '&&': ['||'], '||': ['&&'], '!': [''], '~': [''], '++': ['--'], '+=': ['-='], '|=': ['&=', '^='],
    'true': ['false'], 'false': ['true'], 'UINT32_MAX': ['(UINT32_MAX - 1)', '(UINT32_MAX ^ 16)', '0'],
}

# Bytes of a source, and what stands there instead; "not" for a condition that is turned round.
Change = collections.namedtuple('Change', 'start end new')


class Token:
    def __init__(self, kind, text, start):
        self.kind, self.text, self.start, self.end = kind, text, start, start + len(text)


def tokens_of(text, start=0):
    found = (Token(match.lastgroup, match.group(), start + match.start()) for match in TOKEN.finditer(text))
    return [token for token in found if token.kind != 'skipped']


def is_type(tokens, i):
    """Whether the word at i ends the name of a type, so that a * behind it is no product."""
    return tokens[i].text.endswith('_t') or tokens[i - 1].text in ('struct', 'enum')


def is_function(item):
    """Whether these tokens begin a function: the first brace comes behind its parameters."""
    texts = [token.text for token in item]
    return '{' in texts and texts[texts.index('{') - 1] == ')'


def name_of(item):
    """Of a function, a table, or a type."""
    texts = [token.text for token in item]
    if is_function(item):
        return texts[texts.index('(') - 1]
    depth = 0
    for i, text in enumerate(texts):
        if depth == 0 and text in ('[', '='):
            return texts[i - 1]
        depth += (text == '{') - (text == '}')
    return ' '.join(texts[:2])


def items_of(source):
    """The top level of a file: each item with its name and its tokens."""
    for directive in DIRECTIVE.finditer(source):
        defined = DEFINITION.match(directive.group())
        if defined:
            yield defined.group(1), tokens_of(directive.group()[defined.end():], directive.start() + defined.end())
    item, depth = [], 0
    for token in tokens_of(DIRECTIVE.sub(lambda match: ' ' * len(match.group()), source)):
        item.append(token)
        depth += (token.text in '([{') - (token.text in ')]}')
        if depth == 0 and (token.text == ';' or token.text == '}' and is_function(item)):
            yield name_of(item), item
            item = []


def enumerators(item):
    """The names that an enum lists, in order."""
    texts = [token.text for token in item]
    if texts[:1] != ['enum']:
        return []
    return [text for text, before in zip(texts[1:], texts) if before in ('{', ',') and text != '}']


class Names:
    """The named constants of the sources: which others are of its kind, and the numbers behind some."""

    def __init__(self, sources):
        self.neighbours, self.numbers = {}, {}
        alike, aliases = {}, {}
        for source in sources:
            for name, item in items_of(source):
                self.add_kind(enumerators(item))
                if len(item) == 1:
                    aliases[name] = item[0]
                if [token.text for token in item[:2]] == ['static', 'const'] and not is_function(item):
                    texts = [token.text for token in item]
                    alike.setdefault(' '.join(texts[:texts.index(name)]), []).append(name)
        for kind in alike.values():
            self.add_kind(kind)
        for name, token in aliases.items():
            if token.kind == 'number':
                self.numbers[name] = int(token.text, 0)
            elif token.text in self.neighbours:
                self.neighbours[name] = self.neighbours[token.text]

    def add_kind(self, kind):
        for i, name in enumerate(kind if len(kind) > 1 else []):
            self.neighbours[name] = sorted({kind[i - 1], kind[(i + 1) % len(kind)]})

    def instead_of(self, token):
        """What may stand in place of a token that is a constant or a sign."""
        if token.kind == 'number' or token.text in self.numbers:
            number = self.numbers[token.text] if token.text in self.numbers else int(token.text, 0)
            return [str(other) for other in dict.fromkeys([number + 1, number - 1, 0, number ^ 16]) if other != number]
        return self.neighbours.get(token.text, []) + INSTEAD.get(token.text, [])


def closing(tokens, i):
    """Where the bracket that opens at i closes."""
    depth = 0
    for at in range(i, len(tokens)):
        depth += (tokens[at].text in '([{') - (tokens[at].text in ')]}')
        if depth == 0:
            return at
    raise ValueError(f'a bracket that does not close: {tokens[i].text}')


def replaced(tokens, names, own_name):
    """Each constant, and each operator, by others."""
    in_enum = tokens[0].text == 'enum'
    for i, token in enumerate(tokens):
        before = tokens[i - 1].text if i > 0 else ''
        if token.text == own_name or in_enum and before in ('{', ','):  # where it is defined
            continue
        is_binary = ENDS_OPERAND.match(before) and before != 'return' and not is_type(tokens, i - 1)
        if is_binary or token.text not in ('*', '&', '-', '+'):
            yield from (Change(token.start, token.end, text) for text in names.instead_of(token))


def conditions(tokens):
    """The first and the last token of each condition."""
    for i, token in enumerate(tokens):
        if token.text in ('if', 'while'):
            yield tokens[i + 2], tokens[closing(tokens, i + 1) - 1]
        if token.text == 'for':
            semicolons = [at for at in range(i, closing(tokens, i + 1)) if tokens[at].text == ';']
            yield tokens[semicolons[0] + 1], tokens[semicolons[1] - 1]
        if token.text == '?':
            before = max(at for at in range(i) if tokens[at].text in ('return', '=', '[', ',', ';'))
            yield tokens[before + 1], tokens[i - 1]


def deleted(tokens):
    """Each statement, and each label, taken away; not the return that ends a function."""
    heads = {i + 1: closing(tokens, i + 1) for i, token in enumerate(tokens) if token.text in ('if', 'for', 'while', 'switch')}
    inside = {at for start, end in heads.items() for at in range(start, end)}
    for i, token in enumerate(tokens):
        if token.text in ('case', 'default'):
            end = next(at for at in range(i, len(tokens)) if tokens[at].text == ':')
            yield Change(token.start, tokens[end].end, '')
        begins = i not in inside and (i - 1 in heads.values() or tokens[i - 1].text in (';', '{', '}', ':', 'else'))
        if not begins or token.kind != 'word' or token.text in NO_STATEMENT or is_type(tokens, i):
            continue
        end = next(at for at in range(i, len(tokens)) if tokens[at].text == ';')
        if token.text != 'return' or end + 2 != len(tokens):
            yield Change(token.start, tokens[end].start, '')


def changes_of(name, item, names):
    """Every change of an item."""
    changes = list(replaced(item, names, name))
    if is_function(item):
        changes += [Change(first.start, last.end, 'not') for first, last in conditions(item)]
        changes += deleted(item)
    return changes
