"""convert.py FOLDER..: turns recorded runs (folders with case.ol and record) into a table for crates/test_sessions.

A session is a row: before each event and at the end every strand that has an event, what each asks and what is open, and each
event with its gift. All but the events and gifts is found by rules.py, and what that finds of the events and of their office
calls is compared with the record."""
import pathlib
import sys

sys.path.insert(0, str(pathlib.Path(__file__).resolve().parent.parent / 'calculus'))
from convert import Parser, read_record  # noqa: E402
import rules  # noqa: E402

SCOPED = ('Raise', 'Handle', 'EndScope', 'Compensate')


def escaped(text):
    return text.replace('\\', '\\\\').replace(' ', '\\s').replace('\n', '\\n')


def root_word(root):
    kind = root[0]
    if kind in 'vtf':
        return {'v': 'void', 't': 'true', 'f': 'false'}[kind]
    return "'" + escaped(root[1]) if kind == 's' else f'{kind}{root[1]}'


def value_words(tree):
    words = [root_word(tree[0])]
    for name, members in sorted(tree[1].items()):
        for member in members:
            words += [value_words(member), '=' + escaped(name)]
    return ' '.join(words)


def outcome_words(outcome):
    if outcome[0] == 'value':
        return 'value ' + value_words(outcome[1])
    if outcome[0] == 'fault':
        return f'fault {outcome[1]} {value_words(outcome[2])}'
    return f'code {outcome[1]}'


def need_words(need):
    if need is None:
        return 'none'
    word = need[0]
    if word == 'take':
        return 'take ' + listed(need[1])
    if word == 'bind':
        return f'bind {need[1]} {root_word(need[2])}'
    if word == 'reply':
        return f'reply {need[1]} {outcome_words(need[2])}'
    if word == 'send':
        _, call, port, op, value, wants = need
        return f'send {call} {port} {op} {"wants" if wants else "tells"} {value_words(value)}'
    return ' '.join(map(str, need))


def gift_words(gift):
    if gift[0] == 'mail':
        return f'mail {gift[1]} {gift[2]} {value_words(gift[3])}'
    return outcome_words(gift[1]) if gift[0] == 'answer' else ' '.join(map(str, gift))


def listed(numbers):
    return ' '.join(map(str, numbers)) or '-'


def of_record(node):
    """A tree of a record as rules.py has trees."""
    return (node[0], {name: [of_record(m) for m in members] for name, members in node[1]})


def outcome_of_record(outcome):
    return outcome if outcome[0] == 'refused' else outcome[:-1] + (of_record(outcome[-1]),)


def named(names, event):
    """An event of a record with the names of its scope and fault."""
    strand, kind, n, place, fault = event
    place = names[place] if kind in SCOPED else place
    fault = names[fault] if kind == 'Raise' or (kind == 'Handle' and n == 0) else fault
    return strand, (kind, n, place, fault)


class Told:
    """A run with its program."""

    def __init__(self, folder):
        folder = pathlib.Path(folder)
        self.name = f'{folder.parent.name}_{folder.name}'
        self.text = folder.joinpath('case.ol').read_text()
        self.parsed = Parser(self.text)
        self.messages, self.entries, self.events, self.births = read_record(folder.joinpath('record').read_text())

    def mail(self, session, m):
        """A message as it lies in the box of the session's service: widened."""
        message = self.messages[m]
        if len(message) == 2:
            name, value = message
        else:
            sender, port, op, value = message
            ports = self.parsed.services[self.births[sender]]['ports']
            name = session.operations([ports[port]])[op][0]
        op = session.input_number(name)
        return ('mail', m, op, session.types.widened(of_record(value), session.inputs[op][1]))

    def gift(self, session, kind, need, queue):
        """What the office gave, by the session's next entry, which is the call that the event needed."""
        if kind not in ('In', 'Bind', 'Reply', 'Notify', 'Solicit', 'Answer', 'Finish'):
            assert need == ('nothing',), need
            return ('',)
        entry = queue.pop(0)
        if kind == 'In':
            gift = self.mail(session, entry[1])
            assert entry[0] == 'take' and need[0] == 'take' and gift[2] in need[1], (entry, need)
            return gift
        if kind == 'Bind':
            assert (entry[0], entry[1], entry[2]) == need, (entry, need)
            return entry[3]
        if kind == 'Reply':
            assert (entry[0], entry[1], outcome_of_record(entry[2])) == need, (entry, need)
        elif kind in ('Notify', 'Solicit'):
            assert entry[:4] + (of_record(entry[4]), entry[5]) == need, (entry, need)
        elif kind == 'Answer':
            assert entry[:2] == need, (entry, need)
            return ('answer', outcome_of_record(entry[2]))
        else:
            assert (entry[0], need[0]) == ('end', 'finish'), (entry, need)
        return ('',)

    def played(self, s):
        """The lines of a session."""
        session, queue, lines = rules.Session(self.parsed, self.births[s]), list(self.entries.get(s, [])), []
        for told in self.events.get(s, []):
            strand, event = named(self.parsed.names, told)
            lines += looked(session)
            gift = self.gift(session, event[0], session.need(strand), queue)
            have = session.step(strand, gift)
            assert have == event, (self.name, s, have, event)
            words = ' '.join(map(str, (strand,) + event))
            lines.append(f'step {strand} {gift_words(gift)}'.rstrip() + f' => {words}')
        assert not queue, queue
        return lines + looked(session) + ['ended => ' + ('yes' if session.ended else 'no')]

    def table(self):
        lines = [f'== {self.name}', 'of: sessions'] + ['program: ' + line for line in self.text.split('\n')]
        for s in sorted(self.births):
            lines += [f'-- session {s}', f'service: {self.births[s]}'] + ['does: ' + line for line in self.played(s)]
        return '\n'.join(lines) + '\n\n'


def looked(session):
    """What a session is asked before an event and at its end."""
    enabled = session.enabled()
    lines = [f'need {n} => {need_words(session.need(n))}' for n in enabled]
    return ['enabled => ' + listed(enabled)] + lines + [
        'open => ' + listed(session.open_calls()), 'waiting => ' + listed(session.waiting())]


if __name__ == '__main__':
    sys.setrecursionlimit(100000)
    print('Recorded runs.\n')
    for folder in sys.argv[1:]:
        sys.stdout.write(Told(folder).table())
