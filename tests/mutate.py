"""Small wrong changes to Rattle source, for mutants.py: where they can be made,
and how they are named.

A change is made in code alone: a function's body, or the value of a constant.
Contracts, ghost lines, types of parameters and comments stay as they are. Types
are guessed, and a guess that is wrong gives a change that does not compile.
"""

import re
from collections import namedtuple

Token = namedtuple('Token', 'text start end')
Function = namedtuple('Function', 'name public asks params result first last')
Mutant = namedtuple('Mutant', 'id crate file function open kind edits line')
Local = namedtuple('Local', 'name type mutable since until')

LEXER = re.compile(r'(?P<skip>\s+|//[^\n]*)|b?"(?:\\.|[^"\\])*"|\d\w*|[^\W\d]\w*|'
                   r'\.\.=?|->|=>|::|<=|>=|==|!=|&&|\|\||\+=|-=|.', re.S)
PAIRS = {'(': ')', '[': ']', '{': '}'}
COMPARISONS = {'<': ('<=', 'lt-to-le'), '<=': ('<', 'le-to-lt'),
               '==': ('!=', 'eq-to-ne'), '!=': ('==', 'ne-to-eq')}
SIGNS = {'+': ('-', 'plus-to-minus'), '-': ('+', 'minus-to-plus'),
         '+=': ('-=', 'plus-to-minus'), '-=': ('+=', 'minus-to-plus')}
STARTS = ('{', '}', ';', '(', ',', '=', 'if', 'while', 'return', '&&', '||', '!')
OTHER_VARIABLES = 2


class Source:
    """A file of Rattle: its tokens, its functions, structs and enums."""

    def __init__(self, text):
        self.text, self.tokens = text, []
        for m in LEXER.finditer(text):
            if m.lastgroup != 'skip':
                self.tokens.append(Token(m.group(), m.start(), m.end()))
        self.words = [t.text for t in self.tokens] + [''] * 4
        self.closes = self.matching()
        self.functions, self.constants, self.structs, self.enums = [], [], {}, {}
        self.items()

    def matching(self):
        closes, stack = {}, []
        for i, w in enumerate(self.words):
            if w in PAIRS:
                stack.append(i)
            elif w in PAIRS.values() and stack and PAIRS[self.words[stack[-1]]] == w:
                closes[stack.pop()] = i
        return closes

    def items(self):
        i, w = 0, self.words
        while i < len(self.tokens):
            if w[i] == 'ghost' or w[i] == 'use':
                i = w.index(';', i)
            elif w[i] == 'const':
                end = self.at_level(i, ';')
                self.constants.append((w[i + 1], w.index('=', i) + 1, end))
                i = end
            elif w[i] in ('struct', 'enum'):
                end = self.closes[w.index('{', i)]
                self.declare(w[i], w[i + 1], w.index('{', i), end)
                i = end
            elif w[i] == 'fn':
                i = self.function(i)
            i += 1

    def at_level(self, i, stop):
        while self.words[i] != stop:
            i = self.closes.get(i, i) + 1
        return i

    def parts(self, start, end):
        """The parts between two places that commas part, as pairs of places."""
        out, begin, i = [], start, start
        while i < end:
            if self.words[i] == ',':
                out.append((begin, i))
                begin = i + 1
            i = self.closes.get(i, i) + 1
        if begin < end:
            out.append((begin, end))
        return out

    def named(self, start, end):
        """The names and types of 'a: T, b: U'."""
        found = []
        for a, b in self.parts(start, end):
            while self.words[a] in ('pub', 'mut'):
                a += 1
            if self.words[a + 1] == ':':
                found.append((self.words[a], ' '.join(self.words[a + 2:b])))
        return found

    def declare(self, word, name, start, end):
        if word == 'struct':
            self.structs[name] = dict(self.named(start + 1, end))
            return
        self.enums[name] = {}
        for a, b in self.parts(start + 1, end):
            payload = None
            if self.words[a + 1] == '(':
                payload = [' '.join(self.words[x:y]) for x, y in self.parts(a + 2, b - 1)]
            elif self.words[a + 1] == '{':
                payload = dict(self.named(a + 2, b - 1))
            self.enums[name][self.words[a]] = payload

    def function(self, i):
        w = self.words
        public, j = False, i - 1
        while w[j] in ('extern', 'pub') or w[j].startswith('"'):
            public |= w[j] == 'pub'
            j -= 1
        name, opens = w[i + 1], self.behind_generics(i + 2)
        close = self.closes[opens]
        params, asks, k = self.named(opens + 1, close), False, close + 1
        result = ''
        while w[k] not in ('{', 'requires', 'ensures', 'ghost'):
            result += w[k] if w[k] != '->' else ''
            k += 1
        while w[k] != '{':
            asks |= w[k] == 'requires'
            k = self.closes[w.index('{', k)] + 1  # a clause may have a name
        self.functions.append(Function(name, public, asks, params, result, k, self.closes[k]))
        return self.closes[k]


    def behind_generics(self, i):
        """The place behind the <..> that begins here, or here."""
        depth = self.words[i] == '<'
        while depth:
            i += 1
            depth += (self.words[i] == '<') - (self.words[i] == '>')
        return i + (self.words[i] == '>')


class Finder:
    """The changes that can be made in one file of a crate."""

    def __init__(self, crate, file, sources):
        self.crate, self.file, self.source = crate, file, sources[crate]
        self.sources, self.w, self.found = sources, self.source.words, []
        self.imported = {kind: crate for crate, kinds in re.findall(r'(?m)^use (\w+)::\{?([\w, ]+)\}?;', self.source.text)
                         for kind in kinds.split(', ')}

    def all(self):
        for name, first, last in self.source.constants:
            self.function = Function(name, False, False, [], '', first, last)
            self.each(first, last, [])
        for f in self.source.functions:
            self.function = f
            self.each(f.first + 1, f.last, self.locals(f))
        return self.found

    def each(self, first, last, known):
        self.known = known
        for i in range(first, last):
            self.operators(i)
            self.constant(i)
            self.truth(i)
            self.variant(i)
            self.call(i)
            self.literal(i)
            self.variable(i)
            self.statement(i)

    def add(self, i, kind, change, *edits):
        """An edit is a first and a last token (the last not included) and the text
        to stand there."""
        tokens, text = self.source.tokens, self.source.text
        spans = [(tokens[a].start, tokens[b - 1].end, new) for a, b, new in edits]
        at = tokens[i].start
        line, column = text.count('\n', 0, at) + 1, at - text.rfind('\n', 0, at)
        f, name = self.function, '%s/%s:%d:%d:%s' % (self.crate, self.file, line, column, change)
        self.found.append(Mutant(name, self.crate, self.file, f.name, f.public and not f.asks, kind,
                                 tuple(spans), line))

    def words_of(self, a, b):
        tokens = self.source.tokens
        return self.source.text[tokens[a].start:tokens[b - 1].end] if a < b else ''

    # ---- one token changed

    def operators(self, i):
        w = self.w[i]
        if w in COMPARISONS:
            new, change = COMPARISONS[w]
            edits, start = [(i, i + 1, new)], self.start_of(i)
            if self.w[i - 2] == 'as' and new == '<':
                # a cast before `<` has to stand in parentheses
                edits.append((start, i, '(%s)' % self.words_of(start, i)))
            self.add(i, 'comparison', change, *edits)
        ends_value = re.match(r'[\w)\]]', self.w[i - 1]) and self.w[i - 1] != 'return'
        if w in SIGNS and ends_value:
            new, change = SIGNS[w]
            self.add(i, 'sign', change, (i, i + 1, new))

    def start_of(self, i):
        """Where the operand that ends before a place starts."""
        opens = {b: a for a, b in self.source.closes.items()}
        while self.w[i - 1] not in STARTS:
            i = opens.get(i - 1, i - 1)
        return i

    def constant(self, i):
        m = re.fullmatch(r'(\d+)((?:u|i)\w+)?', self.w[i])
        if not m or self.w[i - 1] == '.':
            return
        value, suffix = int(m.group(1)), m.group(2) or ''
        for new in (value + 1, value - 1):
            if new >= 0 and (new < 2 ** 32 or value >= 2 ** 32):
                change = '%d-to-%d' % (value, new)
                self.add(i, 'constant', change, (i, i + 1, '%d%s' % (new, suffix)))

    def truth(self, i):
        w = self.w
        if w[i] in ('true', 'false'):
            new = 'false' if w[i] == 'true' else 'true'
            self.add(i, 'truth', '%s-to-%s' % (w[i], new), (i, i + 1, new))
        if w[i] == '!':
            self.add(i, 'truth', 'not-removed', (i, i + 1, ''))
        if w[i] == 'if' and re.match(r'\w', w[i + 1]) and w[self.end_of_call(i + 1)] == '{':
            self.add(i, 'truth', 'not-added', (i, i + 1, 'if !'))

    def end_of_call(self, i):
        """Where the call that starts here ends, or here."""
        j = i
        while self.w[j + 1] == '::':
            j += 2
        return self.source.closes[j + 1] + 1 if self.w[j + 1] == '(' else i

    def variant(self, i):
        w, enums = self.w, self.source.enums
        if w[i + 1] != '::' or w[i] not in enums or w[i - 1] == 'let' or w[i + 3] == '=>':
            return
        now = enums[w[i]].get(w[i + 2], 0)
        for other, payload in enums[w[i]].items():
            if now is None and payload is None and other != w[i + 2]:
                self.add(i, 'variant', '%s-to-%s' % (w[i + 2], other), (i + 2, i + 3, other))

    # ---- calls and literals

    def lookup(self, i):
        """The crate and the function that the call at a place names."""
        crate = self.w[i - 2] if self.w[i - 1] == '::' else self.crate
        if crate not in self.sources:
            return None, None
        for f in self.sources[crate].functions:
            if f.name == self.w[i]:
                return crate, f
        return None, None

    def call(self, i):
        if self.w[i + 1] != '(' or not re.match(r'[^\W\d]', self.w[i]):
            return
        crate, f = self.lookup(i)
        if not f:
            return
        args = self.source.parts(i + 2, self.source.closes[i + 1])
        types = [t for _, t in f.params]
        if len(args) != len(types):
            return  # a method or a closure of the same name
        self.swaps(i, 'arguments', args, types, every=True)
        for other in self.sources[crate].functions:
            same = [t for _, t in other.params] == types and other.result == f.result
            reach = other.public
            if crate == self.crate:
                reach = not self.calls(other, self.function.name)
            if same and reach and other.name not in (f.name, self.function.name):
                self.add(i, 'callee', '%s-to-%s' % (f.name, other.name), (i, i + 1, other.name))

    def calls(self, f, name):
        return name in self.w[f.first:f.last]

    def swaps(self, i, kind, parts, types, every):
        for x in range(len(parts)):
            for y in range(x + 1, len(parts)):
                a, b = self.words_of(*parts[x]), self.words_of(*parts[y])
                if types[x] == types[y] and a != b and (every or y == x + 1):
                    self.add(i, kind, 'swap-%d-%d' % (x + 1, y + 1), (*parts[x], b), (*parts[y], a))

    def literal(self, i):
        w, closes = self.w, self.source.closes
        if w[i] == '[' and not re.match(r'[\w)\]]', w[i - 1]) and i in closes:
            parts = self.source.parts(i + 1, closes[i])
            if len(parts) > 1:
                self.swaps(i, 'elements', parts, [''] * len(parts), every=False)
        fields = self.fields_of(w[i])
        if not fields or w[i + 1] != '{' or w[i - 1] == '::':
            return
        names, parts, types = [], [], []
        for a, b in self.source.parts(i + 2, closes[i + 1]):
            names.append(w[a])
            parts.append((a, b))
            types.append(fields.get(w[a]))
        values = [self.words_of(a + 2, b) if w[a + 1] == ':' else w[a] for a, b in parts]
        for x in range(len(parts)):
            for y in range(x + 1, len(parts)):
                if types[x] == types[y] and values[x] != values[y]:
                    self.add(i, 'fields', 'swap-%d-%d' % (x + 1, y + 1),
                             (*parts[x], '%s: %s' % (names[x], values[y])),
                             (*parts[y], '%s: %s' % (names[y], values[x])))

    def fields_of(self, name):
        if name in self.source.structs:
            return self.source.structs[name]
        crate = self.imported.get(name)
        return self.sources[crate].structs.get(name) if crate in self.sources else None

    # ---- another variable

    def locals(self, f):
        """The variables of a function, with what is known of their types, and where
        each can be used."""
        w, closes = self.w, self.source.closes
        self.known = [Local(n, t, False, f.first, f.last) for n, t in f.params]
        blocks = [(a, closes[a]) for a in range(f.first, f.last) if w[a] == '{']
        for i in range(f.first, f.last):
            if w[i] == 'let':
                until = min(b for a, b in blocks if a < i < b)
                self.binding(i, until)
            if w[i] == '=>' and w[i - 1] in (')', '}'):
                until = closes[i + 1] if w[i + 1] == '{' else self.source.at_level(i, ',')
                self.pattern(max(a for a, b in closes.items() if b == i - 1), i, until)
        return self.known

    def binding(self, i, until):
        end = self.source.at_level(i, '{' if self.w[i - 1] in ('if', 'while') else ';')
        equals = self.source.at_level(i, '=')
        mutable = self.w[i + 1] == 'mut'
        at = i + 1 + mutable
        if self.w[at + 1] == ':':
            kind = ' '.join(self.w[at + 2:equals])
        elif at + 1 == equals:
            kind = self.type_of(equals + 1, end)
        else:
            self.pattern(self.source.at_level(i, '=') - 1, end, until, backward=True)
            return
        self.known.append(Local(self.w[at], kind, mutable, end, until))

    def pattern(self, i, since, until, backward=False):
        """The variables of 'Enum::Variant(x)' and 'Enum::Variant { x, y: z }'."""
        w, closes = self.w, self.source.closes
        if backward:
            i = max((a for a, b in closes.items() if b == i), default=i)
        enum = self.source.enums.get(w[i - 3])
        payload = enum.get(w[i - 1]) if enum and i in closes else None
        for n, (a, b) in enumerate(self.source.parts(i + 1, closes[i]) if payload else []):
            if isinstance(payload, list):
                self.known.append(Local(w[a], payload[n], False, since, until))
            else:
                self.known.append(Local(w[b - 1], payload.get(w[a]), False, since, until))

    def in_scope(self, i):
        return {v.name: v for v in self.known if v.since < i < v.until}

    def type_of(self, a, b):
        """The type of an expression, where it is easily told; else nothing."""
        w, closes = self.w, self.source.closes
        scope, end = self.in_scope(a), self.end_of_call(a)
        if w[b - 2] == 'as':
            return w[b - 1]
        if w[a] == '(':
            return self.type_of(a + 1, closes[a])
        if end > a:
            f = self.lookup(a if w[a + 1] == '(' else a + 2)[1]
            return f.result if f else None
        if w[a] in scope and scope[w[a]].type:
            return self.of_variable(scope[w[a]].type, a, b)
        m = re.fullmatch(r'\d+(u\w+)', w[a])
        if m:
            return m.group(1)
        return None

    def of_variable(self, kind, a, b):
        w, item = self.w, re.search(r'\[ (\w+) [\];]', kind)
        if b == a + 1 or re.fullmatch(r'[-+*/%]', w[a + 1]):
            return kind
        if w[a + 1] == '[' and item and '..' not in w[a:self.source.closes[a + 1]]:
            return item.group(1)
        if w[a + 1:a + 3] == ['.', 'len']:
            return 'usize'
        if w[a + 1] == '.':
            return (self.fields_of(kind) or {}).get(w[a + 2])
        return None

    def variable(self, i):
        w, scope = self.w, self.in_scope(i)
        if w[i] not in scope or w[i - 1] in ('.', '::', 'let', 'mut'):
            return
        if w[i + 1] in ('(', '::', '!', ':') or (w[i - 1] == ':' and w[i + 1] == '='):
            return
        here, written = scope[w[i]], w[i + 1] in ('=', '+=', '-=')
        others = [v for v in scope.values() if v.name != here.name and here.type
                  and v.type == here.type and (v.mutable or not written)]
        short = w[i - 1] in ('{', ',') and w[i + 1] in ('}', ',') and self.in_braces(i)
        for v in others[-OTHER_VARIABLES:]:
            new = '%s: %s' % (w[i], v.name) if short else v.name
            self.add(i, 'variable', '%s-to-%s' % (w[i], v.name), (i, i + 1, new))

    def in_braces(self, i):
        return self.w[max(a for a, b in self.source.closes.items() if a < i < b)] == '{'

    # ---- a statement removed

    def statement(self, i):
        w = self.w
        if w[i - 1] not in ('{', '}', ';') or not re.match(r'[^\W\d]', w[i]):
            return
        if not self.in_braces(i):  # behind the ; of an array
            return
        if w[i] in ('let', 'return', 'while', 'match'):
            return
        if w[i] == 'if':
            end = self.source.closes[self.source.at_level(i, '{')] + 1
            body = self.w[self.source.at_level(i, '{') + 1]
            if w[end] != 'else' and body == 'return':
                self.add(i, 'statement', 'guard-removed', (i, end, ''))
            return
        end = i
        while w[end] not in (';', '}', ',', '{', ':', ''):
            end = self.source.closes.get(end, end) + 1
        if w[end] == ';':
            self.add(i, 'statement', 'removed', (i, end + 1, ''))


def apply(text, edits):
    for start, end, new in sorted(edits, reverse=True):
        text = text[:start] + new + text[end:]
    return text
