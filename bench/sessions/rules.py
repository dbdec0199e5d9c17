"""The rules of the calculus once more, over the tuples that bench/calculus/convert.py reads a program into.

A session tells the strands that have an event, what each asks and what is open, and does events. Nothing here was taken from
the crates."""

INTS, LONGS = (-2**31, 2**31 - 1), (-2**63, 2**63 - 1)
MOST_TEXT = 65536
PASSED = ('IOException', 'TypeMismatch', 'CorrelationError', 'Refused')
CODES = {-32001: 'CorrelationError', -32602: 'TypeMismatch'}
NOTHING, DONE, VOID = ('nothing',), ('done',), (('v',), {})


class Fault(Exception):
    """A fault of an expression, an action or a message."""

    def __init__(self, name, value=VOID):
        super().__init__(name)
        self.name, self.value = name, value


# ---- trees: a root and a map from names to lists of trees, never changed once made

def nodes(t):
    return 1 + sum(nodes(m) for ms in t[1].values() for m in ms)


def levels(t):
    return 1 + max((levels(m) for ms in t[1].values() for m in ms), default=0)


def texts(t):
    own = len(t[0][1].encode()) if t[0][0] == 's' else 0
    return own + sum(len(n.encode()) + sum(texts(m) for m in ms) for n, ms in t[1].items())


def is_store(t):
    return nodes(t) <= 65536 and levels(t) <= 64


def is_value(t):
    return nodes(t) <= 4096 and levels(t) <= 64 and texts(t) <= 65536


def find(t, steps):
    """The node at steps, or None."""
    for name, index in steps:
        members = t[1].get(name, [])
        if (index or 0) >= len(members):
            return None
        t = members[index or 0]
    return t


def changed(t, steps, change):
    """The tree with the node at steps changed, where it is made if it lacks."""
    if not steps:
        return change(t)
    (name, index), rest = steps[0], steps[1:]
    members = list(t[1].get(name, []))
    at = index or 0
    if at > 65536:
        raise Fault('StoreTooLarge')
    members += [VOID] * (at + 1 - len(members))
    members[at] = changed(members[at], rest, change)
    return (t[0], {**t[1], name: members})


def kept(store):
    """A new store, within the limits."""
    if not is_store(store):
        raise Fault('StoreTooLarge')
    return store


def without(t, steps):
    (name, index), rest = steps[0], steps[1:]
    members = list(t[1].get(name, []))
    at = index or 0
    if rest:
        if at >= len(members):
            return t
        members[at] = without(members[at], rest)
    elif index is None:
        members = []
    else:
        del members[at:at + 1]
    others = {n: ms for n, ms in t[1].items() if n != name}
    return (t[0], {**others, name: members} if members else others)


# ---- expressions

def number(root):
    if root[0] not in 'il':
        raise Fault('ExprFault')
    return root[1]


def whole(kind, n):
    least, most = INTS if kind == 'i' else LONGS
    if not least <= n <= most:
        raise Fault('ExprFault')
    return (kind, n)


def written(root):
    words = {'v': '', 't': 'true', 'f': 'false'}
    return words[root[0]] if root[0] in words else str(root[1])


def text_root(text):
    if len(text.encode()) > MOST_TEXT:
        raise Fault('ExprFault')
    return ('s', text)


def combined(op, a, b):
    if op == 'Plus' and 's' in (a[0], b[0]):
        return text_root(written(a) + written(b))
    if op == 'Plus' and a[0] == 'v':
        return b
    if op == 'Plus' and b[0] == 'v':
        return a
    x, y = number(a), number(b)
    kind = 'i' if a[0] == b[0] == 'i' else 'l'
    if op in ('Over', 'Rest'):
        if y == 0:
            raise Fault('ExprFault')
        quotient = abs(x) // abs(y) * (1 if (x < 0) == (y < 0) else -1)
        return whole(kind, quotient if op == 'Over' else x - y * quotient)
    return whole(kind, {'Plus': x + y, 'Minus': x - y, 'Times': x * y}[op])


def compared(a, op, b):
    if op in ('Equal', 'Unequal'):
        same = a[1] == b[1] if a[0] in 'il' and b[0] in 'il' else a == b
        return same == (op == 'Equal')
    if a[0] == b[0] == 's':
        x, y = a[1].encode(), b[1].encode()
    else:
        x, y = number(a), number(b)
    return {'Less': x < y, 'AtMost': x <= y, 'More': x > y, 'AtLeast': x >= y}[op]


def is_true(root):
    if root[0] not in 'vtf':
        raise Fault('ExprFault')
    return root[0] == 't'


def truth(b):
    return ('t',) if b else ('f',)


def cast(kind, root):
    if kind == 'Text':
        return text_root(written(root))
    to = 'i' if kind == 'Int' else 'l'
    if root[0] in 'tf':
        return (to, 1 if root[0] == 't' else 0)
    if root[0] == 's':
        digits = root[1][1:] if root[1].startswith('-') else root[1]
        if not digits or any(c not in '0123456789' for c in digits):
            raise Fault('ExprFault')
        return whole(to, int(root[1]))
    return whole(to, number(root))


def steps_of(store, path):
    """The steps of a path with the values of its indices."""
    steps = []
    for name, index in path:
        if index is None:
            steps.append((name, None))
            continue
        root = evaluated(store, index)[0]
        if root[0] != 'i' or root[1] < 0:
            raise Fault('ExprFault')
        steps.append((name, root[1]))
    return steps


def evaluated(store, e):
    """The tree of an expression."""
    word = e[0]
    if word == 'path':
        return find(store, steps_of(store, e[1])) or VOID
    if word == 'literal':
        return (('v',), {name: [t] for name, t in [(n, evaluated(store, x)) for n, x in e[1]]})
    return (root_of(store, e), {})


def root_of(store, e):
    word = e[0]
    if word == 'value':
        return text_root(e[1][1]) if e[1][0] == 's' else e[1]
    if word in ('path', 'literal'):
        return evaluated(store, e)[0]
    if word == 'count':
        steps = steps_of(store, e[1])
        if steps[-1][1] is not None:
            return ('i', 0 if find(store, steps) is None else 1)
        node = find(store, steps[:-1])
        return ('i', 0 if node is None else len(node[1].get(steps[-1][0], [])))
    if word == 'defined':
        return truth(find(store, steps_of(store, e[1])) is not None)
    if word == 'any_of':
        return truth(any(is_true(root_of(store, x)) for x in e[1]))
    if word == 'all_of':
        return truth(all(is_true(root_of(store, x)) for x in e[1]))
    if word == 'compared':
        return truth(compared(root_of(store, e[1]), e[2], root_of(store, e[3])))
    if word in ('sum', 'product'):
        root = root_of(store, e[1])
        for op, x in e[2]:
            root = combined(op, root, root_of(store, x))
        return root
    if word == 'minus':
        return combined('Minus', ('i', 0), root_of(store, e[1]))
    if word == 'negation':
        return truth(not is_true(root_of(store, e[1])))
    assert word == 'cast', word
    return cast(e[1], root_of(store, e[2]))


# ---- types

class Types:
    def __init__(self, parsed):
        self.named = parsed.types

    def widened(self, t, ty):
        """A tree as a type takes it; TypeMismatch where it does not conform."""
        if not is_value(t):
            raise Fault('TypeMismatch')
        return self.fitted(t, ty)

    def fitted(self, t, ty):
        while ty[0] == 'named':
            ty = self.named[ty[1]]
        if ty[0] == 'undefined':
            return t
        kinds = {'void': 'v', 'bool': 'tf', 'int': 'i', 'long': 'il', 'string': 's', 'any': 'vtfils'}[ty[1]]
        fields = {name: (least, most, of) for name, least, most, of in ty[2]}
        if t[0][0] not in kinds or any(name not in fields for name in t[1]):
            raise Fault('TypeMismatch')
        for name, (least, most, _) in fields.items():
            count = len(t[1].get(name, []))
            if count < least or (most is not None and count > most):
                raise Fault('TypeMismatch')
        root = ('l', t[0][1]) if ty[1] == 'long' else t[0]
        return (root, {name: [self.fitted(m, fields[name][2]) for m in ms] for name, ms in t[1].items()})


# ---- handlers: a pair of maps, from faults and from scopes

def forms(p):
    """How many forms a behaviour has, and how many levels."""
    parts = [forms(q) for q in parts_of(p)]
    return 1 + sum(n for n, _ in parts), 1 + max((m for _, m in parts), default=0)


def parts_of(p):
    word = p[0]
    if word in ('sequence', 'parallel'):
        return p[1]
    if word == 'choose':
        return [p[2], p[3]]
    if word in ('repeat', 'scope'):
        return [p[2]]
    if word == 'block':
        return [p[1]]
    if word == 'choice':
        return [q for _, _, reply, after in p[1] for q in ([] if reply is None else [reply[1]]) + [after]]
    if word in ('solicit', 'install'):
        return [q for _, q in p[-1]]
    return []


def filled(p, by):
    """A handler with cH outside of handlers in it replaced."""
    word = p[0]
    if word == 'inner_handler':
        return by
    if word in ('sequence', 'parallel'):
        return (word, [filled(q, by) for q in p[1]])
    if word == 'choose':
        return (word, p[1], filled(p[2], by), filled(p[3], by))
    if word in ('repeat', 'scope'):
        return (word, p[1], filled(p[2], by))
    if word == 'block':
        return (word, filled(p[1], by))
    if word == 'choice':
        return (word, [(o, x, y and (y[0], filled(y[1], by)), filled(after, by)) for o, x, y, after in p[1]])
    return p


def plus(table, scope, handlers):
    """The table with new handlers over it; HandlerTooLarge where they do not fit."""
    faults, scopes = dict(table[0]), dict(table[1])
    for key, body in handlers:
        old, new, name = (table[1], scopes, scope) if key[0] == 'This' else (table[0], faults, key[1])
        new[name] = filled(body, old.get(name, NOTHING))
        count, depth = forms(new[name])
        if count > 65536 or depth > 64:
            raise Fault('HandlerTooLarge')
    return faults, scopes


def fits(table, scope, handlers):
    try:
        plus(table, scope, handlers)
        return True
    except Fault:
        return False


def dropped(entries, name):
    return {n: p for n, p in entries.items() if n != name}


# ---- terms

def own_strands(n, t):
    """The strands that stand in a form of strand n."""
    word = t[0]
    if word == 'par':
        return {n} | {m for k, u in t[1] for m in own_strands(k, u)}
    return {n}.union(*(own_strands(n, u) for u in inside(t)))


def inside(t):
    return {'seq': t[1:2], 'scope': t[2:3], 'exec': t[4:5], 'fail': t[4:5], 'prot': t[1:2]}.get(t[0], ())


def stands_in(n, k, t):
    return n in own_strands(k, t)


def kill(t, f, v):
    word = t[0]
    if word == 'seq':
        return ('seq', kill(t[1], f, v), [])
    if word == 'par':
        return ('par', [(k, kill(u, f, v)) for k, u in t[1]])
    if word == 'scope':
        if t[4][0] in ('live', 'caught') and not (t[4][0] == 'live' and t[2] == DONE):
            return ('prot', ('scope', t[1], kill(t[2], f, v), t[3], ('term',)))
        return ('prot', t)
    if word == 'exec':
        return ('prot', ('fail', t[1], f, v, kill(t[4], f, v)))
    if word == 'wait':
        return ('prot', ('dead',) + t[1:4] + t[5:])
    if word in ('fail', 'dead'):
        return ('prot', t)
    return t if word == 'prot' else DONE


def ready(n, t, q, table):
    word = t[0]
    if word == 'place':
        return {n} if t[1][0] == 'install' and fits(table, q, t[1][1]) else set()
    if word == 'scope':
        return {n} if t[4][0] == 'live' and t[2] == DONE else set()
    if word == 'par':
        return {m for k, u in t[1] for m in ready(k, u, q, table)}
    return ready(n, inside(t)[0], q, table) if word in ('seq', 'exec') else set()


def throw(k, t, n, f, v):
    """What is left of a form of strand k once the fault of strand n went upward in it, and where it came to."""
    word = t[0]
    if word in ('place', 'thrown'):
        return (DONE, ('up',)) if k == n else (t, ('absent',))
    if word == 'par':
        member = next((i for i, (m, u) in enumerate(t[1]) if stands_in(n, m, u)), None)
        if member is None:
            return t, ('absent',)
        left, way = throw(t[1][member][0], t[1][member][1], n, f, v)
        others = [(m, kill(u, f, v)) for m, u in t[1]] if way[0] == 'up' else list(t[1])
        others[member] = (t[1][member][0], left)
        return ('par', others), way
    if word == 'seq':
        left, way = throw(k, t[1], n, f, v)
        return ('seq', left, [] if way[0] == 'up' else t[2]), way
    if word == 'exec':
        left, way = throw(k, t[4], n, f, v)
        return (('prot', ('fail', t[1], f, v, left)) if way[0] == 'up' else t[:4] + (left,)), way
    if word == 'prot':
        left, way = throw(k, t[1], n, f, v)
        return ('prot', left), way
    if word == 'scope':
        q, body, table, state = t[1:]
        left, way = throw(k, body, n, f, v)
        if way[0] != 'up':
            return ('scope', q, left, table, state), way
        first = ready(k, body, q, table)
        if first:
            return t, ('blocked', min(first))
        if state[0] == 'live' and f in table[0]:
            return ('scope', q, left, table, ('caught', f, v)), ('caught', q)
        if state[0] == 'live':
            return ('prot', ('scope', q, left, table, ('zombie',))), way
        if state[0] == 'last':
            return ('scope', q, left, table, ('zombie',)), ('ended', q)
    return t, ('absent',)


class Session:
    """A session of a service of a program."""

    def __init__(self, parsed, service):
        self.types, self.service = Types(parsed), parsed.services[service]
        self.interfaces = parsed.interfaces
        self.inputs = self.operations([p for p in self.service['ports'] if p['input']])
        self.store, self.next, self.call, self.ended = VOID, 1, 0, False
        first = self.start(('sequence', [self.service['init'], self.service['main']]))
        self.form = self.normal(('scope', 'main', first, ({}, {}), ('live',)))

    def operations(self, ports):
        names = []
        for port in ports:
            names += [i for i in port['interfaces'] if i not in names]
        return [o for i in names for o in self.interfaces[i]]

    def sent(self, port, op):
        """The numbers of an output port and its operation, and the operation."""
        ports = [p['name'] for p in self.service['ports']]
        if port == 'Console':
            return len(ports), 0, ('println', ('plain', 'any', []), ('plain', 'void', []), [])
        n = ports.index(port)
        operations = self.operations([self.service['ports'][n]])
        i = [o[0] for o in operations].index(op)
        return n, i, operations[i]

    def input_number(self, op):
        return [o[0] for o in self.inputs].index(op)

    # ---- start and normal form

    def start(self, p):
        word = p[0]
        if word in ('nothing', 'inner_handler'):
            return DONE
        if word == 'block':
            return self.start(p[1])
        if word == 'sequence':
            return ('seq', self.start(p[1][0]), list(p[1][1:]))
        if word == 'parallel':
            numbers = range(self.next, self.next + len(p[1]))
            self.next += len(p[1])
            return ('par', [(n, self.start(q)) for n, q in zip(numbers, p[1])])
        if word == 'scope':
            return ('scope', p[1], self.start(p[2]), ({}, {}), ('live',))
        return ('place', p)

    def normal(self, t):
        word = t[0]
        if word == 'seq':
            head, rest = self.normal(t[1]), list(t[2])
            while head == DONE and rest:
                head = self.normal(self.start(rest.pop(0)))
            return ('seq', head, rest) if rest else head
        if word == 'par':
            members = [(n, self.normal(u)) for n, u in t[1]]
            return DONE if all(u == DONE for _, u in members) else ('par', members)
        if word == 'scope':
            body = self.normal(t[2])
            return DONE if body == DONE and t[4][0] in ('last', 'zombie') else t[:2] + (body,) + t[3:]
        if word in ('exec', 'fail'):
            return t[:4] + (self.normal(t[4]),)
        if word == 'prot':
            body = self.normal(t[1])
            return body if body == DONE or body[0] == 'prot' else ('prot', body)
        return t

    # ---- what is asked

    def is_finished(self):
        return self.form == DONE or (self.form[0] == 'scope' and self.form[2] == DONE and self.form[4][0] == 'live')

    def enabled(self):
        return [n for n in sorted(own_strands(0, self.form)) if self.need(n) is not None]

    def need(self, n):
        """What the event of a strand asks, None where it has no event."""
        if self.ended:
            return None
        if self.is_finished():
            return ('finish',) if n == 0 else None
        try:
            return self.asks(n, 0, self.form, 'main', ({}, {}))
        except Fault as fault:
            return ('nothing',) if self.thrown(n, fault)[1][0] in ('up', 'caught', 'ended') else None

    def thrown(self, n, fault):
        return throw(0, self.form, n, fault.name, fault.value)

    def asks(self, n, k, t, q, table):
        """What the form asks for strand n; a Fault where its place has one."""
        word = t[0]
        if word == 'par':
            member = next(((m, u) for m, u in t[1] if stands_in(n, m, u)), None)
            return member and self.asks(n, member[0], member[1], q, table)
        if word in ('seq', 'prot'):
            return self.asks(n, k, t[1], q, table)
        if word == 'scope' and t[2] != DONE:
            return self.asks(n, k, t[2], t[1], t[3])
        if word == 'exec' and t[4] != DONE:
            return self.asks(n, k, t[4], q, table)
        if n != k:
            return None
        if word == 'place':
            return self.place_asks(t[1], q, table)
        if word == 'thrown':
            raise Fault(t[1], t[2])
        if word == 'scope':
            return ('nothing',) if t[4][0] in ('live', 'caught', 'term') else None
        if word == 'exec':
            return ('reply', t[1], self.reply(t[2], t[3]))
        if word == 'fail':
            return ('reply', t[1], ('fault', t[2], t[3]))
        return ('answer', t[1]) if word in ('wait', 'dead') else None

    def place_asks(self, p, q, table):
        word = p[0]
        if word in ('assign', 'copy', 'undef', 'choose', 'repeat'):
            self.effect(p)
        elif word == 'install':
            plus(table, q, p[1])
        elif word == 'throw':
            raise Fault(p[1], evaluated(self.store, p[2]))
        elif word == 'bind':
            root = evaluated(self.store, p[2])[0]
            if root == ('v',):
                raise Fault('ExprFault')
            variables = [v[0] for vs in self.service['sets'] for v in vs]
            return ('bind', variables.index(p[1]), root)
        elif word == 'choice':
            return ('take', [self.input_number(b[0]) for b in p[1]])
        elif word in ('notify', 'solicit'):
            port, op, operation = self.sent(p[1], p[2])
            value = self.types.widened(evaluated(self.store, p[3]), operation[1])
            return ('send', self.call, port, op, value, word == 'solicit')
        return ('nothing',)

    def effect(self, p):
        """The store after an action, or the truth of a test."""
        word = p[0]
        if word in ('choose', 'repeat'):
            return is_true(root_of(self.store, p[1]))
        if word == 'undef':
            return without(self.store, steps_of(self.store, p[1]))
        steps, value = steps_of(self.store, p[1]), evaluated(self.store, p[2])
        if word == 'copy':
            return self.put(steps, value)
        return kept(changed(self.store, steps, lambda t: (value[0], t[1])))

    def put(self, steps, value):
        """The store with a whole tree at steps."""
        return kept(changed(self.store, steps, lambda t: value))

    def reply(self, op, path):
        value = VOID if path is None else find(self.store, steps_of(self.store, path)) or VOID
        try:
            return ('value', self.types.widened(value, self.inputs[op][2]))
        except Fault as fault:
            return ('fault', fault.name, fault.value)

    # ---- events

    def step(self, n, gift):
        """Does the event of a strand: its kind, number, place and fault. The gift is one that fits."""
        if self.is_finished():
            self.ended = True
            return ('Finish', 0, 0, 0)
        try:
            self.asks(n, 0, self.form, 'main', ({}, {}))
        except Fault as fault:
            form, way = self.thrown(n, fault)
            self.form = self.normal(form)
            return ('Raise', ('caught', 'ended', 'up').index(way[0]), way[1] if len(way) > 1 else 'main', fault.name)
        self.event = None
        self.form = self.normal(self.acted(n, 0, self.form, Around('main', ({}, {})), gift))
        return self.event

    def acted(self, n, k, t, around, gift):
        word = t[0]
        if word == 'par':
            at = next(i for i, (m, u) in enumerate(t[1]) if stands_in(n, m, u))
            m, u = t[1][at]
            return ('par', t[1][:at] + [(m, self.acted(n, m, u, around, gift))] + t[1][at + 1:])
        if word == 'seq':
            return ('seq', self.acted(n, k, t[1], around, gift), t[2])
        if word == 'prot':
            return ('prot', self.acted(n, k, t[1], around, gift))
        if word == 'scope' and t[2] != DONE:
            own = Around(t[1], t[3])
            body = self.acted(n, k, t[2], own, gift)
            return ('scope', t[1], body, own.table, t[4])
        if word == 'exec' and t[4] != DONE:
            return t[:4] + (self.acted(n, k, t[4], around, gift),)
        if word == 'place':
            return self.place_acts(t[1], around, gift)
        if word == 'scope':
            return self.scope_acts(t, around)
        if word in ('exec', 'fail'):
            self.event = ('Reply', t[1], 0, 0)
            return DONE if word == 'exec' else t[4]
        return self.answer(t, around, gift)

    def place_acts(self, p, around, gift):
        word = p[0]
        self.event = ('Local', 0, 0, 0)
        if word in ('assign', 'copy', 'undef'):
            self.store = self.effect(p)
            return DONE
        if word == 'choose':
            return self.start(p[2] if self.effect(p) else p[3])
        if word == 'repeat':
            return self.start(('sequence', [p[2], p])) if self.effect(p) else DONE
        if word == 'install':
            self.event = ('Install', 0, 0, 0)
            around.table = plus(around.table, around.scope, p[1])
            return DONE
        if word == 'comp':
            self.event = ('Compensate', 0, p[1], 0)
            handler = around.table[1].get(p[1], NOTHING)
            around.table = (around.table[0], dropped(around.table[1], p[1]))
            return self.start(handler)
        if word == 'choice':
            return self.taken(p, gift)
        if word == 'bind':
            self.event = ('Bind', 0, 0, 0)
            return DONE if gift[0] == 'bound' else ('thrown', 'CorrelationError', VOID)
        port, op, _ = self.sent(p[1], p[2])
        call = self.call
        self.call += 1
        self.event = ('Notify' if word == 'notify' else 'Solicit', call, 0, 0)
        return DONE if word == 'notify' else ('wait', call, (port, op), self.sent(p[1], p[2])[2], p[4], p[5])

    def taken(self, p, gift):
        _, message, op, value = gift
        branch = next(i for i, b in enumerate(p[1]) if self.input_number(b[0]) == op)
        _, target, reply, after = p[1][branch]
        self.event = ('In', message, branch, 0)
        stood = self.received(target, value)
        if reply is None:
            return stood or self.start(after)
        return ('seq', ('exec', message, op, reply[0], stood or self.start(reply[1])), [after])

    def received(self, target, value):
        """Sets a target, if there is one; what stands there where that passes a limit, else None."""
        try:
            if target is not None:
                self.store = self.put(steps_of(self.store, target), value)
            return None
        except Fault as fault:
            return ('thrown', fault.name, fault.value)

    def scope_acts(self, t, around):
        q, _, table, state = t[1:]
        if state[0] == 'live':
            self.event = ('EndScope', 0, q, 0)
            around.table = (around.table[0], {**around.table[1], **table[1]})
            return DONE
        if state[0] == 'term':
            self.event = ('Handle', 1, q, 0)
            return ('scope', q, self.start(table[1].get(q, NOTHING)), (table[0], dropped(table[1], q)), ('last',))
        _, f, v = state
        self.event = ('Handle', 0, q, f)
        try:
            self.store = self.put([(q, None), (f, None)], v)
        except Fault:
            pass
        return ('scope', q, self.start(table[0].get(f, NOTHING)), (dropped(table[0], f), table[1]), ('live',))

    def read(self, operation, outcome):
        """The value of an answer; a Fault where it is one."""
        if outcome[0] == 'value':
            return self.types.widened(outcome[1], operation[2])
        if outcome[0] == 'refused':
            if outcome[1] in CODES:
                raise Fault(CODES[outcome[1]])
            raise Fault('Refused', (('l', outcome[1]), {}))
        _, name, value = outcome
        try:
            thrown = next((ty for f, ty in operation[3] if f == name), None)
            if thrown is not None:
                value = self.types.widened(value, thrown)
        except Fault:
            thrown = None
        if thrown is None and name not in PASSED:
            raise Fault('UndeclaredFault')
        raise Fault(name, value)

    def answer(self, t, around, gift):
        handlers, operation = t[-1], t[3]
        self.event = ('Answer', t[1], 0, 0)
        try:
            value = self.read(operation, gift[1])
        except Fault as fault:
            return DONE if t[0] == 'dead' else ('thrown', fault.name, fault.value)
        if not fits(around.table, around.scope, handlers):
            return DONE if t[0] == 'dead' else ('thrown', 'HandlerTooLarge', VOID)
        around.table = plus(around.table, around.scope, handlers)
        return DONE if t[0] == 'dead' else self.received(t[4], value) or DONE

    # ---- what is open

    def held(self, words, t=None):
        t = self.form if t is None else t
        own = {t[1]} if t[0] in words else set()
        parts = [u for _, u in t[1]] if t[0] == 'par' else inside(t)
        return own.union(*(self.held(words, u) for u in parts))

    def open_calls(self):
        return sorted(self.held(('exec', 'fail')))

    def waiting(self):
        return sorted(self.held(('wait', 'dead')))


class Around:
    """The nearest scope and its handlers."""

    def __init__(self, scope, table):
        self.scope, self.table = scope, table
