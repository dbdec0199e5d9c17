"""Turns a recorded run (a folder with case.ol and record) into a module of lemmas: what each session did, step by step."""
import json
import pathlib
import re
import sys

TOKEN = re.compile(
    r'\s+|//[^\n]*|/\*.*?\*/|("(?:[^"\\]|\\.)*")|(\d+L?)|([A-Za-z_]\w*)|(=>|==|!=|<=|>=|<<|\+\+|--|&&|\|\||.)', re.S)
KINDS = ('void', 'bool', 'int', 'long', 'string', 'any')
STANDARD = ['IOException', 'TypeMismatch', 'CorrelationError', 'Refused', 'UndeclaredFault', 'ExprFault',
            'HandlerTooLarge', 'StoreTooLarge', 'main']
ONE = ('value', ('i', 1))


def lex(text):
    out, at = [], 0
    while at < len(text):
        m = TOKEN.match(text, at)
        at = m.end()
        token = m.group(1) or m.group(2) or m.group(3) or m.group(4)
        if token:
            out.append(token)
    return out


def unescape(token):
    return re.sub(r'\\(.)', lambda m: {'n': '\n', 't': '\t', 'r': '\r'}.get(m.group(1), m.group(1)), token[1:-1], flags=re.S)


class Parser:
    """Reads a program into plain tuples."""

    def __init__(self, text):
        self.t, self.i = lex(text), 0
        self.names = list(STANDARD)
        self.types, self.order, self.interfaces, self.services = {}, [], {}, []
        while self.i < len(self.t):
            word = self.next()
            if word == 'type':
                self.typedef()
            elif word == 'interface':
                self.interface()
            else:
                assert word == 'service', word
                self.service()

    def peek(self, ahead=0):
        return self.t[self.i + ahead] if self.i + ahead < len(self.t) else None

    def next(self):
        self.i += 1
        return self.t[self.i - 1]

    def eat(self, word):
        if self.peek() == word:
            self.i += 1
            return True
        return False

    def need(self, word):
        assert self.eat(word), (word, self.t[self.i - 5:self.i + 5])

    def name(self):
        word = self.next()
        if word not in self.names:
            self.names.append(word)
        return word

    def typedef(self):
        name = self.next()
        self.order.append(name)
        self.types[name] = self.tbody() if self.eat(':') else ('plain', 'void', self.fields())

    def tbody(self):
        word = self.next()
        if word == 'undefined':
            return ('undefined',)
        if word in KINDS:
            return ('plain', word, self.fields() if self.peek() == '{' else [])
        return ('named', word)

    def fields(self):
        self.need('{')
        out = []
        while not self.eat('}'):
            self.eat('.')
            name, least, most = self.next(), 1, 1
            if self.eat('?'):
                least = 0
            elif self.eat('*'):
                least, most = 0, None
            elif self.eat('['):
                least = int(self.next())
                self.need(',')
                high = self.next()
                most = None if high == '*' else int(high)
                self.need(']')
            self.need(':')
            out.append((name, least, most, self.tbody()))
            self.eat(',')
        return out

    def tname(self):
        word = self.next()
        return ('undefined',) if word == 'undefined' else ('plain', word, []) if word in KINDS else ('named', word)

    def interface(self):
        name = self.next()
        self.need('{')
        ops = []
        while not self.eat('}'):
            kind = self.next()
            self.need(':')
            while True:
                op = self.next()
                self.need('(')
                request, response, throws = self.tname(), None, []
                self.need(')')
                if kind == 'RequestResponse':
                    self.need('(')
                    response = self.tname()
                    self.need(')')
                    if self.eat('throws'):
                        while self.peek() not in (',', '}', 'OneWay', 'RequestResponse'):
                            fault, ty = self.name(), ('plain', 'void', [])
                            if self.eat('('):
                                ty = self.tname()
                                self.need(')')
                            throws.append((fault, ty))
                ops.append((op, request, response, throws))
                if not self.eat(','):
                    break
        self.interfaces[name] = ops

    def service(self):
        s = dict(name=self.next(), single=True, ports=[], sets=[], init=('nothing',), main=('nothing',))
        self.need('{')
        while not self.eat('}'):
            word = self.next()
            if word == 'execution':
                self.need(':')
                s['single'] = self.next() == 'single'
            elif word in ('inputPort', 'outputPort'):
                port = dict(name=self.next(), input=word == 'inputPort', interfaces=[])
                self.need('{')
                while not self.eat('}'):
                    field = self.next()
                    self.need(':')
                    if field == 'location':
                        port['location'] = unescape(self.next())
                    elif field == 'protocol':
                        self.next()
                    else:
                        port['interfaces'].append(self.next())
                        while self.eat(','):
                            port['interfaces'].append(self.next())
                s['ports'].append(port)
            elif word == 'cset':
                self.need('{')
                variables = []
                while not self.eat('}'):
                    name, aliases = self.next(), []
                    self.need(':')
                    while self.peek() not in (',', '}'):
                        ty, path = self.next(), []
                        while self.eat('.'):
                            path.append(self.next())
                        aliases.append((ty, path))
                    variables.append((name, aliases))
                    self.eat(',')
                s['sets'].append(variables)
            else:
                s[word] = self.block()
        self.services.append(s)

    # ---- behaviours

    def block(self):
        self.need('{')
        if self.eat('}'):
            return ('nothing',)
        p = self.proc()
        self.need('}')
        return p

    def proc(self):
        members = [self.seq()]
        while self.eat('|'):
            members.append(self.seq())
        return members[0] if len(members) == 1 else ('parallel', members)

    def seq(self):
        members = [self.stmt()]
        while self.eat(';'):
            members.append(self.stmt())
        return members[0] if len(members) == 1 else ('sequence', members)

    def handlers(self):
        out = []
        while True:
            key = ('This',) if self.eat('this') else ('Fault', self.name())
            self.need('=>')
            out.append((key, self.proc()))
            if not self.eat(','):
                return out

    def step_of(self, path, sign):
        return ('assign', path, ('sum', ('path', path), [('Plus' if sign == '++' else 'Minus', ONE)]))

    def assignment(self):
        path = self.path()
        if self.peek() in ('++', '--'):
            return self.step_of(path, self.next())
        if self.eat('<<'):
            return ('copy', path, self.expr())
        self.need('=')
        return ('assign', path, self.expr())

    def branch(self):
        op = self.next()
        target, reply = self.path_in_parentheses(), None
        if self.eat('('):
            y = None if self.peek() == ')' else self.path()
            self.need(')')
            reply = (y, self.block())
        return op, target, reply

    def path_in_parentheses(self):
        self.need('(')
        path = None if self.peek() == ')' else self.path()
        self.need(')')
        return path

    def stmt(self):
        word = self.peek()
        if word == '{':
            return ('block', self.block())
        if word == '[':
            branches = []
            while self.eat('['):
                op, target, reply = self.branch()
                self.need(']')
                branches.append((op, target, reply, self.block()))
            return ('choice', branches)
        if word == 'nullProcess':
            self.next()
            return ('nothing',)
        if word == 'cH':
            self.next()
            return ('inner_handler',)
        if word == 'undef':
            self.next()
            return ('undef', self.path_in_parentheses())
        if word == 'csets':
            self.next()
            self.need('.')
            v = self.next()
            self.need('=')
            return ('bind', v, self.expr())
        if word == 'if':
            self.next()
            self.need('(')
            test = self.expr()
            self.need(')')
            then, other = self.block(), ('nothing',)
            if self.eat('else'):
                other = self.stmt() if self.peek() == 'if' else self.block()
            return ('choose', test, then, other)
        if word == 'while':
            self.next()
            self.need('(')
            test = self.expr()
            self.need(')')
            return ('repeat', test, self.block())
        if word == 'for':
            self.next()
            self.need('(')
            first = self.assignment()
            self.need(',')
            test = self.expr()
            self.need(',')
            more = self.assignment()
            self.need(')')
            return ('sequence', [first, ('repeat', test, ('sequence', [self.block(), more]))])
        if word == 'scope':
            self.next()
            self.need('(')
            q = self.name()
            self.need(')')
            return ('scope', q, self.block())
        if word == 'install':
            self.next()
            self.need('(')
            k = self.handlers()
            self.need(')')
            return ('install', k)
        if word == 'throw':
            self.next()
            self.need('(')
            f, e = self.name(), ('value', ('v',))
            if self.eat(','):
                e = self.expr()
            self.need(')')
            return ('throw', f, e)
        if word == 'comp':
            self.next()
            self.need('(')
            q = self.name()
            self.need(')')
            return ('comp', q)
        if self.peek(1) == '@':
            op = self.next()
            self.next()
            port, e = self.next(), ('value', ('v',))
            self.need('(')
            if self.peek() != ')':
                e = self.expr()
            self.need(')')
            if self.peek() != '(':
                return ('notify', port, op, e)
            x, k = self.path_in_parentheses(), []
            if self.eat('['):
                k = self.handlers()
                self.need(']')
            return ('solicit', port, op, e, x, k)
        if self.peek(1) == '(':
            op, target, reply = self.branch()
            return ('choice', [(op, target, reply, ('nothing',))])
        return self.assignment()

    # ---- expressions

    def path(self):
        steps = []
        while True:
            name, index = self.next(), None
            if self.eat('['):
                index = self.expr()
                self.need(']')
            steps.append((name, index))
            if not self.eat('.'):
                return steps

    def level(self, sign, below, word):
        members = [below()]
        while self.eat(sign):
            members.append(below())
        return members[0] if len(members) == 1 else (word, members)

    def expr(self):
        return self.level('||', self.conjunction, 'any_of')

    def conjunction(self):
        return self.level('&&', self.comparison, 'all_of')

    def comparison(self):
        left = self.sum()
        ops = {'==': 'Equal', '!=': 'Unequal', '<': 'Less', '<=': 'AtMost', '>': 'More', '>=': 'AtLeast'}
        return ('compared', left, ops[self.next()], self.sum()) if self.peek() in ops else left

    def parts(self, below, ops, word):
        first, more = below(), []
        while self.peek() in ops:
            op = ops[self.next()]
            more.append((op, below()))
        return (word, first, more) if more else first

    def sum(self):
        return self.parts(self.product, {'+': 'Plus', '-': 'Minus'}, 'sum')

    def product(self):
        return self.parts(self.unary, {'*': 'Times', '/': 'Over', '%': 'Rest'}, 'product')

    def unary(self):
        if self.eat('-'):
            return ('minus', self.unary())
        if self.eat('!'):
            return ('negation', self.unary())
        return self.primary()

    def primary(self):
        word = self.peek()
        if word[0] == '"':
            return ('value', ('s', unescape(self.next())))
        if word[0].isdigit():
            self.next()
            return ('value', ('l', int(word[:-1])) if word.endswith('L') else ('i', int(word)))
        if word in ('true', 'false'):
            self.next()
            return ('value', ('t',) if word == 'true' else ('f',))
        if word == '#':
            self.next()
            return ('count', self.path())
        if word == 'is_defined':
            self.next()
            return ('defined', self.path_in_parentheses())
        if word in ('int', 'long', 'string') and self.peek(1) == '(':
            self.next()
            self.need('(')
            e = self.expr()
            self.need(')')
            return ('cast', {'int': 'Int', 'long': 'Long', 'string': 'Text'}[word], e)
        if self.eat('('):
            e = self.expr()
            self.need(')')
            return e
        if self.eat('{'):
            members = []
            while not self.eat('}'):
                self.eat('.')
                name = self.next()
                self.need('=')
                members.append((name, self.expr()))
                self.eat(',')
            return ('literal', members)
        return ('path', self.path())


class Line:
    """The words of one line of a record."""

    def __init__(self, s):
        self.s, self.i = s, 0

    def word(self):
        j = self.s.find(' ', self.i)
        j = len(self.s) if j < 0 else j
        w = self.s[self.i:j]
        self.i = j + 1
        return w

    def number(self):
        return int(self.word())

    def json(self):
        j = self.i + 1
        while self.s[j] != '"':
            j += 2 if self.s[j] == '\\' else 1
        w = json.loads(self.s[self.i:j + 1])
        self.i = j + 1
        return w

    def string(self):
        w = self.json()
        self.i += 1
        return w

    def node(self):
        assert self.i < len(self.s), self.s
        kind = self.s[self.i]
        self.i += 1
        if kind == 's':
            root = ('s', self.json())
        elif kind in 'il':
            m = re.compile(r'-?\d+').match(self.s, self.i)
            self.i = m.end()
            root = (kind, int(m.group()))
        else:
            root = (kind,)
        children = []
        if self.i < len(self.s) and self.s[self.i] == '{':
            self.i += 1
            while True:
                name = self.json()
                assert self.s[self.i:self.i + 2] == ':['
                self.i += 2
                nodes = [self.node()]
                while self.s[self.i] == ',':
                    self.i += 1
                    nodes.append(self.node())
                assert self.s[self.i] == ']'
                self.i += 1
                children.append((name, nodes))
                end = self.s[self.i]
                self.i += 1
                if end == '}':
                    break
        return (root, children)

    def tree(self):
        t = self.node()
        self.i += 1
        return t

    def outcome(self):
        word = self.word()
        if word == 'value':
            return ('value', self.tree())
        if word == 'fault':
            name = self.string()
            return ('fault', name, self.tree())
        return ('refused', self.number())


def read_record(text):
    """Accepted messages (service or None, operation, value), the entries of each session, and its events."""
    messages, entries, events, births = [], {}, {}, {}
    for line in text.split('\n'):
        w = Line(line)
        word = w.word()
        if word == 'entry':
            actor, call = w.number(), w.word()
            if call == 'post':
                w.word()
                w.number(), w.number(), w.number()
                op, value = w.string(), w.tree()
                if w.word() == 'ok':
                    assert w.number() == len(messages)
                    messages.append((op, value))
                continue
            if call == 'adopt':
                births[actor] = w.number()
                continue
            if call == 'take':
                entry = (call, w.number())
            elif call == 'bind':
                v, x, reply = w.number(), w.tree()[0], w.word()
                entry = (call, v, x, (reply, w.number()) if reply == 'held' else (reply,))
            elif call in ('reply', 'answer'):
                n = w.number()
                entry = (call, n, w.outcome())
            elif call == 'send':
                k, port, op, value, wants, placed = w.number(), w.number(), w.number(), w.tree(), w.word() == '1', w.word()
                entry = (call, k, port, op, value, wants)
                if placed == 'ok':
                    assert w.number() == len(messages)
                    messages.append((actor, port, op, value))
            elif call == 'end':
                entry = (call,)
            else:
                continue
            entries.setdefault(actor, []).append(entry)
        elif word == 'event':
            s, strand, kind = w.number(), w.number(), w.word()
            events.setdefault(s, []).append((strand, kind, w.number(), w.number(), w.number()))
    return messages, entries, events, births


# ---- antt

CODES = {-32601: 'UnknownOperation', -32602: 'NotConforming', -32001: 'Correlation', -32002: 'BoxFull',
         -32003: 'RunFull', -32004: 'Stopped', -32005: 'SessionEnded'}


def text(s):
    codes = s.encode('utf-8')
    return '(' + ' ∷ '.join(map(str, codes)) + ' ∷ [])' if codes else '[]'


def listed(xs):
    return '(' + ' ∷ '.join(xs) + ' ∷ [])' if xs else '[]'


def option(x):
    return 'None' if x is None else f'(Some {x})'


def boolean(b):
    return 'true' if b else 'false'


def integer(n):
    return f'(pos {n})' if n >= 0 else f'(negsuc {-n - 1})'


def chain(word, end, items):
    """A list of its own kind: WORD item (WORD item END)."""
    out = end
    for item in reversed(items):
        out = f'({word(item) if callable(word) else word + " " + item} {out})'
    return out


def root(r):
    if r[0] == 'v':
        return 'root.Void'
    if r[0] in 'tf':
        return f'(root.Bool {boolean(r[0] == "t")})'
    if r[0] == 's':
        return f'(root.Text {text(r[1])})'
    return f'(root.{"Int" if r[0] == "i" else "Long"} {integer(r[1])})'


def tree(t):
    fields = 'no_fields'
    for name, nodes in reversed(t[1]):
        fields = f'(field {text(name)} {chain("tree", "no_trees", [tree(n) for n in nodes])} {fields})'
    return f'(node {root(t[0])} {fields})'


def outcome(o):
    if o[0] == 'value':
        return f'(outcome.Value {tree(o[1])})'
    if o[0] == 'fault':
        return f'(outcome.Fault {text(o[1])} {tree(o[2])})'
    reason = 'reason.' + CODES[o[1]] if o[1] in CODES else f'(reason.Other {integer(o[1])})'
    return f'(outcome.Refused {reason})'


class Emitter:
    """Writes a program as plain data."""

    def __init__(self, parsed):
        self.p = parsed
        self.types = {name: i for i, name in enumerate(parsed.order)}
        self.interfaces = {name: i for i, name in enumerate(parsed.interfaces)}

    def fault(self, name):
        return self.p.names.index(name)

    def ty(self, t):
        if t[0] == 'undefined':
            return 'undefined'
        if t[0] == 'named':
            return f'(named {self.types[t[1]]})'
        kind = {'void': 'Void', 'bool': 'Bool', 'int': 'Int', 'long': 'Long', 'string': 'Text', 'any': 'Any'}[t[1]]
        fields = 'no_type_fields'
        for name, least, most, ty in reversed(t[2]):
            fields = f'(type_field {text(name)} {least} {option(most)} {self.ty(ty)} {fields})'
        return f'(plain kinds.{kind} {fields})'

    def path(self, steps):
        out = 'here'
        for name, index in reversed(steps):
            out = f'(step {text(name)} {out})' if index is None else f'(step_at {text(name)} {self.exp(index)} {out})'
        return out

    def target(self, path):
        return option(None if path is None else self.path(path))

    def exp(self, e):
        word = e[0]
        if word == 'value':
            return f'(constant {root(e[1])})'
        if word in ('path', 'count', 'defined'):
            return f'({ {"path": "at_path", "count": "count_at", "defined": "defined_at"}[word] } {self.path(e[1])})'
        if word == 'literal':
            return f'(literal {chain(lambda m: f"member_of {text(m[0])} {self.exp(m[1])}", "no_member_list", e[1])})'
        if word in ('any_of', 'all_of'):
            return f'({word} {chain("exp", "no_exps", [self.exp(x) for x in e[1]])})'
        if word == 'compared':
            return f'(compared {self.exp(e[1])} compare.{e[2]} {self.exp(e[3])})'
        if word == 'sum':
            return f'(sum {self.exp(e[1])} {chain(lambda m: f"sum_part sums.{m[0]} {self.exp(m[1])}", "no_sum_parts", e[2])})'
        if word == 'product':
            return f'(product {self.exp(e[1])} {chain(lambda m: f"mul_part muls.{m[0]} {self.exp(m[1])}", "no_mul_parts", e[2])})'
        if word == 'cast':
            return f'(cast casts.{e[1]} {self.exp(e[2])})'
        return f'({word} {self.exp(e[1])})'

    def handlers(self, k):
        def one(h):
            key = 'key.This' if h[0][0] == 'This' else f'(key.Fault {self.fault(h[0][1])})'
            return f'handler {key} {self.proc(h[1])}'
        return chain(one, 'no_handlers', k)

    def branch(self, b):
        op, target, reply, after = b
        number = self.inputs.index(op)
        if reply is None:
            return f'one_way {number} {self.target(target)} {self.proc(after)}'
        return f'request {number} {self.target(target)} {self.target(reply[0])} {self.proc(reply[1])} {self.proc(after)}'

    def sent(self, port, op):
        names = [p['name'] for p in self.s['ports']] + ['Console']
        n = names.index(port)
        ops = ['println'] if port == 'Console' else self.operations([self.s['ports'][n]])
        return f'{n} {ops.index(op)}'

    def proc(self, p):
        word = p[0]
        if word in ('nothing', 'inner_handler'):
            return word
        if word in ('assign', 'copy'):
            return f'({word} {self.path(p[1])} {self.exp(p[2])})'
        if word == 'undef':
            return f'(undef {self.path(p[1])})'
        if word == 'bind':
            return f'(bind {[v[0] for vs in self.s["sets"] for v in vs].index(p[1])} {self.exp(p[2])})'
        if word in ('sequence', 'parallel'):
            return f'({word} {chain("proc", "no_procs", [self.proc(q) for q in p[1]])})'
        if word == 'choose':
            return f'(choose {self.exp(p[1])} {self.proc(p[2])} {self.proc(p[3])})'
        if word == 'repeat':
            return f'(repeat {self.exp(p[1])} {self.proc(p[2])})'
        if word == 'choice':
            return f'(choice {chain(self.branch, "no_branches", p[1])})'
        if word == 'notify':
            return f'(notify {self.sent(p[1], p[2])} {self.exp(p[3])})'
        if word == 'solicit':
            return f'(solicit {self.sent(p[1], p[2])} {self.exp(p[3])} {self.target(p[4])} {self.handlers(p[5])})'
        if word == 'install':
            return f'(install {self.handlers(p[1])})'
        if word == 'throw':
            return f'(throw {self.fault(p[1])} {self.exp(p[2])})'
        if word == 'comp':
            return f'(comp {self.fault(p[1])})'
        if word == 'scope':
            return f'(scope {self.fault(p[1])} {self.proc(p[2])})'
        return f'(block {self.proc(p[1])})'

    def operations(self, ports):
        names = []
        for port in ports:
            for i in port['interfaces']:
                if i not in names:
                    names.append(i)
        return [o[0] for i in names for o in self.p.interfaces[i]]

    def service(self, s):
        self.s = s
        self.inputs = self.operations([p for p in s['ports'] if p['input']])
        s['inputs'] = self.inputs
        ports = [f'record {{ name = {text(p["name"])}; input = {boolean(p["input"])}; location = {text(p["location"])}; '
                 f'interfaces = {listed([str(self.interfaces[i]) for i in p["interfaces"]])} }}' for p in s['ports']]

        def variable(v):
            aliases = [f'record {{ ty = {self.types[t]}; path = {listed([text(w) for w in path])} }}' for t, path in v[1]]
            return f'record {{ name = {text(v[0])}; aliases = {listed(aliases)} }}'
        sets = [f'record {{ variables = {listed([variable(v) for v in vs])} }}' for vs in s['sets']]
        return (f'record {{ name = {text(s["name"])}; execution = execution.{"Single" if s["single"] else "Concurrent"}; '
                f'ports = {listed(ports)}; sets = {listed(sets)}; init = {self.proc(s["init"])}; main = {self.proc(s["main"])} }}')

    def interface(self, name, ops):
        def operation(o):
            throws = [f'record {{ fault = {self.fault(f)}; ty = {self.ty(t)} }}' for f, t in o[3]]
            response = option(None if o[2] is None else self.ty(o[2]))
            return f'record {{ name = {text(o[0])}; request = {self.ty(o[1])}; response = {response}; throws = {listed(throws)} }}'
        return f'record {{ name = {text(name)}; operations = {listed([operation(o) for o in ops])} }}'

    def program(self):
        p = self.p
        return (f'record {{\n  types = {listed([self.ty(p.types[n]) for n in p.order])};\n'
                f'  interfaces = {listed([self.interface(n, ops) for n, ops in p.interfaces.items()])};\n'
                f'  services = {listed([self.service(s) for s in p.services])};\n'
                f'  names = {listed([text(n) for n in p.names])};\n}}')


HEAD = '''-- {title}
use Rattle.std.specs.Prelude.{{◌≡◌, ℕ, pos, negsuc, Bool, true, false, List, [], ◌∷◌, Option, None, Some}}
use Rattle.std.proofs.Common.{{refl}}
use Rattle.std.specs.Fmt.{{digits}}
use Rattle.jolie_trees.specs.declared.root.Root.TheVariants as root
use Rattle.jolie_trees.specs.Data.{{Tree, node, Fields, no_fields, field, Trees, no_trees, tree}}
use Rattle.behaviour_tree.specs.declared.types.RootKind.TheVariants as kinds
use Rattle.behaviour_tree.specs.declared.expr.CompareOp.TheVariants as compare
use Rattle.behaviour_tree.specs.declared.expr.SumOp.TheVariants as sums
use Rattle.behaviour_tree.specs.declared.expr.MulOp.TheVariants as muls
use Rattle.behaviour_tree.specs.declared.expr.CastKind.TheVariants as casts
use Rattle.behaviour_tree.specs.declared.behaviour.HandlerKey.TheVariants as key
use Rattle.behaviour_tree.specs.declared.program.Execution.TheVariants as execution
use Rattle.behaviour_tree.specs.declared.words.Kind.TheVariants as kind
use Rattle.behaviour_tree.specs.declared.words.Need.TheVariants as need
use Rattle.behaviour_tree.specs.declared.words.Given.TheVariants as given
use Rattle.behaviour_tree.specs.declared.words.Outcome.TheVariants as outcome
use Rattle.behaviour_tree.specs.declared.words.Reason.TheVariants as reason
use Rattle.behaviour_tree.specs.Data.{{plain, named, undefined, no_type_fields, type_field, here, step, step_at, constant, at_path, count_at, defined_at, literal, any_of, all_of, compared, sum, product, minus, negation, cast, no_exps, exp, no_sum_parts, sum_part, no_mul_parts, mul_part, no_member_list, member_of, Proc, nothing, assign, undef, copy, bind, sequence, parallel, choose, repeat, choice, notify, solicit, install, throw, comp, inner_handler, scope, block, no_procs, proc, no_branches, one_way, request, no_handlers, handler, ProgramParts}}
use Rattle.test_calculus.specs.Told.{{Told, told, Act, act, mail, happens, then_tries}}
use Rattle.test_calculus.specs.Kept.{{kept}}

abbrev program : ProgramParts
program = {program}
'''


def steps_of(parsed, s, service, messages, entries, events):
    """The acts of a session, and what is told of each: a pair of antt lists."""
    queue = list(entries.get(s, []))
    acts, toldlist = [], []
    inputs = parsed.services[service]['inputs']
    for strand, kind, number, place, fault in events:
        gift, need = 'given.Nothing', 'need.Nothing'
        if kind in ('In', 'Bind', 'Reply', 'Notify', 'Solicit', 'Answer', 'Finish'):
            entry = queue.pop(0)
            if kind == 'In':
                m = entry[1]
                message = messages[m]
                if len(message) == 2:
                    op, value = inputs.index(message[0]), message[1]
                else:
                    sender = parsed.services[message[4]]
                    op, value = inputs.index(message[5]), message[3]
                gift, need = f'(mail program {service} {m} {op} {tree(value)})', f'(need.Take {listed([str(op)])})'
            elif kind == 'Bind':
                reply = {'bound': 'given.Bound', 'fixed': 'given.Fixed'}.get(entry[3][0]) or f'(given.Held {entry[3][1]})'
                gift, need = reply, f'(need.Bind {entry[1]} {root(entry[2])})'
            elif kind == 'Reply':
                need = f'(need.Reply {entry[1]} {outcome(entry[2])})'
            elif kind in ('Notify', 'Solicit'):
                _, k, port, op, value, wants = entry
                need = f'(need.Send {k} {port} {op} {tree(value)} {boolean(wants)})'
            elif kind == 'Answer':
                gift, need = f'(given.Answer {outcome(entry[2])})', f'(need.Answer {entry[1]})'
            else:
                need = 'need.Finish'
        acts.append(f'act {strand} {gift}')
        toldlist.append(f'told {strand} kind.{kind} {number} {place} {fault} {need}')
    assert not queue, queue
    return acts, toldlist


def module(folder, title, kept=False):
    folder = pathlib.Path(folder)
    parsed = Parser(folder.joinpath('case.ol').read_text())
    program = Emitter(parsed).program()
    messages, entries, events, births = read_record(folder.joinpath('record').read_text())
    # a message of a session: the name of its operation is that of the sender's port
    full = []
    for message in messages:
        if len(message) == 2:
            full.append(message)
            continue
        sender = parsed.services[births[message[0]]]
        emitter = Emitter(parsed)
        emitter.s = sender
        name = emitter.operations([sender['ports'][message[1]]])[message[2]]
        full.append((message[0], message[1], message[2], message[3], births[message[0]], name))
    out = [HEAD.format(title=title, program=program)]
    for s in sorted(events):
        if not events[s]:
            continue
        acts, toldlist = steps_of(parsed, s, births[s], full, entries, events[s])
        lines = ' ∷\n    '
        if kept:
            out.append(f'\npub kept_{s} : kept program {births[s]} (\n    {lines.join(acts)} ∷ []) ≡ true\n'
                       f'unfolding digits\nkept_{s} = refl\n')
            continue
        out.append(f'\npub session_{s} : happens program {births[s]} (\n    {lines.join(acts)} ∷ []) ≡ (\n    '
                   f'{lines.join(toldlist)} ∷ [])\nunfolding digits\nsession_{s} = refl\n')
    return ''.join(out)


# ---- written steps

WAYS = {'caught': 0, 'ended': 1, 'uncaught': 2}


class Steps:
    """Reads what a session does, line by line, and what it may not do there."""

    def __init__(self, parsed, service):
        self.p, self.service = parsed, service
        self.emitter = Emitter(parsed)
        self.emitter.s = parsed.services[service]
        self.acts, self.told, self.lemmas = [], [], []

    def op(self, name):
        return self.p.services[self.service]['inputs'].index(name)

    def mail(self, w):
        m, op = w.number(), self.op(w.word())
        return m, op, f'(mail program {self.service} {m} {op} {tree(w.tree())})'

    def given(self, w):
        word = w.word()
        if word == 'mail':
            return self.mail(w)[2]
        if word == 'answer':
            return f'(given.Answer {outcome(w.outcome())})'
        if word == 'held':
            return f'(given.Held {w.number()})'
        return {'nothing': 'given.Nothing', 'bound': 'given.Bound', 'fixed': 'given.Fixed'}[word]

    def reply(self, w):
        return outcome(w.outcome())

    def line(self, line):
        w = Line(line)
        word = w.word()
        if word == 'not':
            strand = w.number()
            self.lemmas.append((len(self.acts), f'{strand} {self.given(w)}', line))
            return
        strand, kind = int(word), w.word()
        gift, need, number, place, fault = 'given.Nothing', 'need.Nothing', 0, 0, 0
        if kind == 'In':
            number, op, gift = self.mail(w)
            need = f'(need.Take ({op} ∷ []))'
            branches = w.word()
            place = int(branches) if branches else 0
        elif kind == 'Raise':
            number = WAYS[w.word()]
            place, fault = self.p.names.index(w.word()), self.p.names.index(w.word())
        elif kind == 'Handle':
            number = {'caught': 0, 'term': 1}[w.word()]
            place = self.p.names.index(w.word())
            fault = 0 if number else self.p.names.index(w.word())
        elif kind in ('EndScope', 'Compensate'):
            place = self.p.names.index(w.word())
        elif kind == 'Reply':
            number = w.number()
            need = f'(need.Reply {number} {self.reply(w)})'
        elif kind in ('Notify', 'Solicit'):
            number = w.number()
            port, op = w.word(), w.word()
            need = f'(need.Send {number} {self.emitter.sent(port, op)} {tree(w.tree())} {boolean(kind == "Solicit")})'
        elif kind == 'Answer':
            number = w.number()
            gift, need = f'(given.Answer {outcome(w.outcome())})', f'(need.Answer {number})'
        elif kind == 'Bind':
            variable, value = w.number(), w.tree()[0]
            gift, need = self.given(w), f'(need.Bind {variable} {root(value)})'
        elif kind == 'Finish':
            need = 'need.Finish'
        self.acts.append(f'act {strand} {gift}')
        self.told.append(f'told {strand} kind.{kind} {number} {place} {fault} {need}')

    def text(self, name):
        joint = ' ∷\n    '
        out = [f'\npub {name} : happens program {self.service} (\n    {joint.join(self.acts)} ∷ []) ≡ (\n    '
               f'{joint.join(self.told)} ∷ [])\nunfolding digits\n{name} = refl\n']
        for i, (n, act, line) in enumerate(self.lemmas):
            before = '[]' if n == 0 else f'(\n    {joint.join(self.acts[:n])} ∷ [])'
            out.append(f'\n-- after {n} events: {line}\npub {name}_refuses_{i} : then_tries program {self.service} {before} {act} ≡ None\n'
                       f'unfolding digits\n{name}_refuses_{i} = refl\n')
        return ''.join(out)


def written(program_file, steps_file):
    parsed = Parser(pathlib.Path(program_file).read_text())
    program = Emitter(parsed).program()
    lines = pathlib.Path(steps_file).read_text().split('\n')
    out = [HEAD.format(title=lines[0].lstrip('# '), program=program)]
    session, name = None, None
    for line in lines[1:]:
        if line.startswith('session '):
            if session:
                out.append(session.text(name))
            _, name, service = line.split(' ')[:3]
            session = Steps(parsed, int(service))
        elif line.strip() and not line.startswith('#'):
            session.line(line)
    out.append(session.text(name))
    return ''.join(out)


if __name__ == '__main__':
    if sys.argv[1] == '--steps':
        print(written(sys.argv[2], sys.argv[3]), end='')
    elif sys.argv[1] == '--kept':
        print(module(sys.argv[2], 'What holds of each configuration of a recorded run.', True), end='')
    else:
        print(module(sys.argv[1], sys.argv[2] if len(sys.argv) > 2 else 'A recorded run.'), end='')
