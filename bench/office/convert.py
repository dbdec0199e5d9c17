"""Turns a recorded run (case.ol and record) into a module of lemmas: which entries of its history are legal, and why."""
import pathlib
import sys

sys.path.insert(0, str(pathlib.Path(__file__).resolve().parent.parent / 'calculus'))
from convert import (CODES, Emitter, Line, Parser, boolean, integer, listed, outcome, root, text, tree)  # noqa: E402


def reason(code):
    return f'reason.{CODES[code]}' if code in CODES else f'(reason.Other {integer(code)})'


class Run:
    """A program, the entries of its history, and the events of each session."""

    def __init__(self, program, record):
        self.parsed = Parser(program)
        self.program = Emitter(self.parsed).program()
        self.entries, self.events, self.sessions, self.limits, self.budget = [], {}, None, None, 10000
        self.order, self.notes, self.workers = None, None, None
        for line in record.split('\n'):
            w = Line(line)
            word = w.word()
            if word == 'entry':
                self.entries.append(self.entry(w))
            elif word == 'sessions':
                self.sessions = w.number()
            elif word == 'budget':
                self.budget = w.number()
            elif word == 'workers':
                self.workers = w.number()
            elif word == 'order':
                self.order = line.split()[1:]
            elif word == 'notes':
                self.notes = w.string()
            elif word == 'limits':
                self.limits = [w.number() for _ in range(4)]
            elif word == 'event':
                s, strand, kind = w.number(), w.number(), w.word()
                self.events.setdefault(s, []).append((strand, kind, w.number(), w.number(), w.number()))

    def entry(self, w):
        actor, call = w.number(), w.word()
        if call == 'post':
            w.word()
            posting, index, service, op, value = w.number(), w.number(), w.number(), w.string(), w.tree()
            return actor, (call, posting, index, service, op, value, placed(w))
        if call == 'bind':
            variable, value, reply = w.number(), w.tree()[0], w.word()
            return actor, (call, variable, value, (reply, w.number()) if reply == 'held' else (reply,))
        if call in ('reply', 'answer', 'collect'):
            return actor, (call, w.number(), w.outcome())
        if call == 'send':
            k, port, op, value, wants = w.number(), w.number(), w.number(), w.tree(), w.word() == '1'
            return actor, (call, k, port, op, value, wants, placed(w))
        if call == 'answered':
            return actor, (call, w.number(), w.number(), w.outcome())
        if call == 'fetch':
            return actor, (call, w.number(), w.number())
        if call in ('adopt', 'take'):
            return actor, (call, w.number())
        return actor, (call,)

    def service_of(self, s):
        return next(a[1] for actor, a in self.entries if a[0] == 'adopt' and actor == s)

    def operation_sent(self, s, port, op):
        """The name of an operation of a port of a session's service."""
        service = self.parsed.services[self.service_of(s)]
        emitter = Emitter(self.parsed)
        emitter.s = service
        return emitter.operations([service['ports'][port]])[op]


def placed(w):
    word = w.word()
    return (word,) if word == 'out' else (word, w.number())


def load(folder):
    folder = pathlib.Path(folder)
    run = Run(folder.joinpath('case.ol').read_text(), folder.joinpath('record').read_text())
    words = folder.joinpath('args').read_text().split() if folder.joinpath('args').exists() else []
    if '--budget' in words:
        run.budget = int(words[words.index('--budget') + 1])
    return run


def load_case(path):
    return Run(pathlib.Path(path + '.ol').read_text(), pathlib.Path(path + '.record').read_text())


# ---- antt

BINDINGS = {'bound': 'binding.Bound', 'fixed': 'binding.Fixed'}


def act(a):
    word = a[0]
    if word == 'post':
        posted = f'(record {{ service = {a[3]}; op = {text(a[4])}; value = {tree(a[5])} }})'
        reply = f'(answer.Accepted {a[6][1]})' if a[6][0] == 'ok' else f'(answer.Refused {reason(a[6][1])})'
        return f'act.Post {a[1]} {a[2]} {posted} {reply}'
    if word == 'send':
        went = 'at.Out' if a[6][0] == 'out' else f'(at.At {a[6][1]})' if a[6][0] == 'ok' else f'(at.Refused {reason(a[6][1])})'
        return f'act.Send {a[1]} {a[2]} {a[3]} {tree(a[4])} {boolean(a[5])} {went}'
    if word == 'bind':
        reply = BINDINGS.get(a[3][0]) or f'(binding.Held {a[3][1]})'
        return f'act.Bind {a[1]} {root(a[2])} {reply}'
    if word in ('reply', 'answer', 'collect'):
        return f'act.{word.capitalize()} {a[1]} {outcome(a[2])}'
    if word == 'answered':
        return f'act.Answered {a[1]} {a[2]} {outcome(a[3])}'
    if word == 'fetch':
        return f'act.Fetch {a[1]} {a[2]}'
    if word in ('adopt', 'take'):
        return f'act.{word.capitalize()} {a[1]}'
    return f'act.{word.capitalize()}'


def entry(e):
    return f'record {{ actor = {e[0]}; act = {act(e[1])} }}'


def lines(items):
    return '(\n    ' + ' ∷\n    '.join(items) + ' ∷ [])' if items else '[]'


IMPORTS = [
    ('std.specs.Prelude', '◌≡◌ ℕ pos negsuc Bool true false List [] ◌∷◌ take Option None Some'),
    ('std.proofs.Common', 'refl'),
    ('std.specs.Fmt', 'digits'),
    ('jolie_trees.specs.declared.root.Root.TheVariants', 'as root'),
    ('jolie_trees.specs.Data', 'Tree node Fields no_fields field Trees no_trees tree'),
    ('behaviour_tree.specs.declared.types.RootKind.TheVariants', 'as kinds'),
    ('behaviour_tree.specs.declared.expr.CompareOp.TheVariants', 'as compare'),
    ('behaviour_tree.specs.declared.expr.SumOp.TheVariants', 'as sums'),
    ('behaviour_tree.specs.declared.expr.MulOp.TheVariants', 'as muls'),
    ('behaviour_tree.specs.declared.expr.CastKind.TheVariants', 'as casts'),
    ('behaviour_tree.specs.declared.behaviour.HandlerKey.TheVariants', 'as key'),
    ('behaviour_tree.specs.declared.program.Execution.TheVariants', 'as execution'),
    ('behaviour_tree.specs.declared.words.Event', 'Event'),
    ('behaviour_tree.specs.declared.words.Kind.TheVariants', 'as kind'),
    ('behaviour_tree.specs.declared.words.Outcome.TheVariants', 'as outcome'),
    ('behaviour_tree.specs.declared.words.Reason.TheVariants', 'as reason'),
    ('behaviour_tree.specs.Data',
     'plain named undefined no_type_fields type_field here step step_at constant at_path count_at defined_at literal any_of '
     'all_of compared sum product minus negation cast no_exps exp no_sum_parts sum_part no_mul_parts mul_part no_member_list '
     'member_of Proc nothing assign undef copy bind sequence parallel choose repeat choice notify solicit install throw comp '
     'inner_handler scope block no_procs proc no_branches one_way request no_handlers handler ProgramParts'),
    ('correlation.specs.declared.bind_reply.BindReply.TheVariants', 'as binding'),
    ('office_core.specs.declared.post.PostReply.TheVariants', 'as answer'),
    ('office_core.specs.declared.history.Placed.TheVariants', 'as at'),
    ('office_core.specs.declared.history.Act.TheVariants', 'as act'),
    ('office_core.specs.declared.history.Entry', 'Entry'),
    ('office_core.specs.declared.front.CallIn.TheVariants', 'as call'),
    ('office_core.specs.declared.front.Posting', 'Posting'),
    ('office_core.specs.Limits', 'Setting run_of first_worker'),
    ('office_core.specs.Accepted', 'past_of'),
    ('office_core.specs.Legal', 'IsLegal'),
    ('run_record.specs.Agrees', 'IsSession'),
    ('run_record.specs.Quiet', 'before_stop sessions_at'),
    ('run_record.specs.Answered', 'stand_together'),
    ('run_record.specs.Postings', 'posts_by posts_of'),
    ('run_record.specs.Order', 'order_alone'),
    ('run_record.specs.Outside', 'notes'),
    ('test_trials.specs.Counts', 'legal_entries with_at'),
    ('test_trials.specs.Fronts', 'told_from'),
    ('test_trials.specs.Sessions', 'event agrees'),
    ('test_trials.specs.Quiet', 'is_quiet is_still'),
    ('test_trials.proofs.Told', 'is_session'),
]


# what the runs import beside that
RUNS = [
    ('std.specs.Prelude', '◌++◌'),
    ('run_record.specs.declared.record.Record', 'Record'),
    ('run_record.specs.Run', 'alone workers IsRun IsSpent'),
    ('test_trials.proofs.Runs', 'is_run unstopped unclosed foreign missing too_many restless'),
    ('run_record.specs.Order', 'IsOrder'),
    ('test_trials.proofs.Workers',
     'is_run_of_workers stranger posts_apart second_first not_as_posted not_without_one not_twice'),
    ('test_trials.specs.Quiet', 'can_act'),
    ('test_trials.proofs.Spends', 'spends is_spent not_spent'),
]


def head(title):
    out = [f'-- {title}']
    for module, names in IMPORTS:
        library = '' if module.startswith('mathlib') else 'Rattle.'
        out.append(f'use {library}{module} {names}' if names.startswith('as ') else
                   f'use {library}{module}.{{{", ".join(names.split())}}}')
    return '\n'.join(out) + '\n'


def given(run, title):
    """The program, what its office works by, and the history."""
    setting = 'run_of program'
    if run.limits:
        limits = zip(('sessions', 'messages', 'weight', 'box'), run.limits)
        limits = '; '.join(f'{name} = {n}' for name, n in limits)
        setting = f'record {{ parts = program; limits = record {{ {limits} }} }}'
    return (head(title) + f'\n-- the program\nabbrev program : ProgramParts\nprogram = {run.program}\n'
            f'\n-- what its office works by\nabbrev setting : Setting\nsetting = {setting}\n'
            f'\n-- its history\nabbrev history : List Entry\nhistory = {lines([entry(e) for e in run.entries])}\n')


# ---- sessions

PROOFS = {'take': 'refl', 'bind': '(refl, refl)', 'reply': '(refl, refl)', 'answer': 'refl', 'end': 'tt',
          'send': '(refl, refl, refl, refl, refl)'}
CALLS = ('In', 'Bind', 'Reply', 'Notify', 'Solicit', 'Answer', 'Finish')


def event(e):
    return f'event {e[0]} kind.{e[1]} {e[2]} {e[3]} {e[4]}'


def calls(run, s):
    return [a for actor, a in run.entries if actor == s and a[0] != 'adopt']


def sessions(run):
    """The events of each session, and that they agree with the history."""
    if run.sessions is None:
        return ''
    out = []
    for s in range(run.sessions):
        events = lines([event(e) for e in run.events.get(s, [])])
        out.append(f'\n-- the events of session {s}\nabbrev events_{s} : List Event\nevents_{s} = {events}\n')
    names = ' ∷ '.join([f'events_{s}' for s in range(run.sessions)] + ['[]'])
    out.append(f'\n-- the events of each session\nabbrev sessions : List (List Event)\nsessions = {names}\n')
    for s in range(run.sessions):
        proof = 'tt'
        for a in reversed(calls(run, s)):
            proof = f'({PROOFS[a[0]]}, {proof})'
        out.append(f'\npub session_{s} : IsSession setting history {s} events_{s}\nunfolding digits\n'
                   f'session_{s} = is_session setting history {s} {run.service_of(s)} events_{s} refl refl {proof}\n')
    out.append(f'\npub quiet : is_quiet setting {run.budget} (before_stop history) sessions ≡ true\nunfolding digits\nquiet = refl\n')
    if run.workers is None:
        out.append(f'\npub still : is_still setting {run.budget} history sessions ≡ true\nunfolding digits\nstill = refl\n')
        out.append('\npub together : stand_together history ≡ true\ntogether = refl\n')
    return ''.join(out)


def nested(names):
    proof = 'tt'
    for name in reversed(names):
        proof = f'({name}, {proof})'
    return proof


def cut(run, i):
    """The events of each session when the first i entries were there: those before the first whose call came later."""
    out = []
    for s in range(run.sessions):
        left, events = sum(1 for actor, a in run.entries[:i] if actor == s and a[0] != 'adopt'), []
        for e in run.events.get(s, []):
            if e[1] in CALLS:
                if left == 0:
                    break
                left -= 1
            events.append(e)
        out.append(events)
    return out


NO_RUN = '(r : Record) → r.history.entries.items ≡ {} → IsRun setting {} alone false r → ⊥'


def no_run(name, history, budget, lemma):
    """That no record of a spoilt history is a run."""
    return (f'\npub spoilt_{name} : {NO_RUN.format(history, budget)}\n'
            f'spoilt_{name} r has = {lemma.format(f"setting {budget} false {history} r has")}\n')


def runs(run):
    """That a record of the history and the events is a run, and that spoilt ones are none."""
    words = [a[0] for _, a in run.entries]
    if run.sessions is None or 'stop' not in words or len(run.entries) > MOST:
        return ''
    each = nested([f'session_{s}' for s in range(run.sessions)])
    shared = f'legal = legal; stopped = refl; actors = refl; all = refl; each = {each}; within = refl; quiet = quiet'
    if run.workers is not None:
        return (f'\npub run : (r : Record) → r.history.entries.items ≡ history → r.sessions ≡ sessions\n'
                f'    → IsRun setting {run.budget} (workers {run.workers}) false r\n'
                f'run = is_run_of_workers setting {run.budget} {run.workers} history sessions (record {{ {shared}; posted = refl }})\n'
                + ordered(run, words.index('stop')))
    out = [f'\npub run : (r : Record) → r.history.entries.items ≡ history → r.sessions ≡ sessions\n'
           f'    → IsRun setting {run.budget} alone false r\n'
           f'run = is_run setting {run.budget} history sessions\n'
           f'    (record {{ {shared}; closed = refl; posted = together; still = still }})\n']
    stop, close = words.index('stop'), words.index('close')
    out.append(no_run('run_without_its_stop', f'(with_at {stop} [] history)', run.budget, 'unstopped {} refl'))
    out.append(no_run('run_that_is_not_closed', f'(with_at {close} [] history)', run.budget, 'unclosed {} refl'))
    out.append(no_run('run_stopped_by_another', f'(with_at {stop} (record {{ actor = 4097; act = act.Stop }} ∷ []) history)',
                      run.budget, 'foreign {} refl'))
    if run.sessions:
        names = ' ∷ '.join([f'events_{s}' for s in range(1, run.sessions)] + ['[]'])
        out.append(f'\npub spoilt_run_that_lacks_a_session : (r : Record) → r.history.entries.items ≡ history → r.sessions ≡ ({names})\n'
                   f'    → IsRun setting {run.budget} alone false r → ⊥\n'
                   f'spoilt_run_that_lacks_a_session r has events = missing setting {run.budget} false history r has ({names}) events refl\n')
        s = max(range(run.sessions), key=lambda s: len(run.events.get(s, [])))
        most = len(run.events.get(s, [])) - 1
        if most >= 0:
            out.append(f'\npub spoilt_run_over_its_budget : (r : Record) → r.history.entries.items ≡ history → r.sessions ≡ sessions\n'
                       f'    → IsRun setting {most} alone false r → ⊥\n'
                       f'spoilt_run_over_its_budget r has events =\n'
                       f'    too_many setting {most} false history r has sessions events {s} events_{s} refl refl\n')
    i = next((i for i, (s, a) in enumerate(run.entries) if a[0] in ('reply', 'end')), None)
    if i is not None and run.sessions:
        out.append(left_early(run, i))
    return ''.join(out)


def ordered(run, stop):
    """The order of two postings, of which the second was collected first; and what is no run, and no order of them."""
    place = {a[1]: i for i, (_, a) in enumerate(run.entries) if a[0] == 'collect'}
    message = {a[1]: a[6][1] for _, a in run.entries if a[0] == 'post'}
    by = f'setting history first_worker {place[message[1]]} {place[message[0]]} refl refl refl'
    hands, order = f'setting {run.budget} {run.workers} false', 'IsOrder setting history first_worker 2'
    other = f'(with_at {stop} (record {{ actor = {4097 + run.workers}; act = act.Stop }} ∷ []) history)'
    again = f'(with_at {stop} ({entry(run.entries[0])} ∷ record {{ actor = 4096; act = act.Stop }} ∷ []) history)'
    record = '(r : Record) → r.history.entries.items ≡ {} → IsRun setting {} (workers {}) false r → ⊥'
    return (f'\npub order : {order} (1 ∷ 0 ∷ [])\norder = second_first {by}\n'
            f'\npub spoilt_order_as_posted : {order} (0 ∷ 1 ∷ []) → ⊥\nspoilt_order_as_posted = not_as_posted {by}\n'
            f'\npub spoilt_order_without_one : {order} (1 ∷ []) → ⊥\n'
            f'spoilt_order_without_one = not_without_one setting history first_worker\n'
            f'\npub spoilt_order_with_one_twice : {order} (1 ∷ 0 ∷ 0 ∷ []) → ⊥\n'
            f'spoilt_order_with_one_twice = not_twice setting history first_worker\n'
            f'\npub spoilt_run_stopped_by_a_stranger : {record.format(other, run.budget, run.workers)}\n'
            f'spoilt_run_stopped_by_a_stranger r has = stranger {hands} {other} r has refl\n'
            f'\npub spoilt_run_posted_apart : {record.format(again, run.budget, run.workers)}\n'
            f'spoilt_run_posted_apart r has = posts_apart {hands} {again} r has 4096 refl\n')


def left_early(run, i):
    """A run that was stopped in the middle, where a session could go on."""
    out = [f'\n-- the run, where it is stopped behind its first {i} entries\nabbrev stopped_early : List Entry\n'
           f'stopped_early = take {i} history ++ record {{ actor = 4096; act = act.Stop }} ∷ []\n']
    names = []
    for s, events in enumerate(cut(run, i)):
        out.append(f'\nabbrev early_{s} : List Event\nearly_{s} = {lines([event(e) for e in events])}\n')
        names.append(f'early_{s}')
    born = [s for s in range(run.sessions) if any(actor == s and a[0] == 'adopt' for actor, a in run.entries[:i])]
    if len(born) < run.sessions:
        return ''
    for s in born:
        proof = nested([PROOFS[a[0]] for actor, a in run.entries[:i] if actor == s and a[0] != 'adopt'])
        out.append(f'\nearly_session_{s} : IsSession setting (before_stop stopped_early) {s} early_{s}\nunfolding digits\n'
                   f'early_session_{s} = is_session setting (before_stop stopped_early) {s} {run.service_of(s)} early_{s} refl refl {proof}\n')
    sessions = f'({" ∷ ".join(names + ["[]"])})'
    out.append(f'\nleft_to_do : is_quiet setting {run.budget} (before_stop stopped_early) {sessions} ≡ false\nunfolding digits\nleft_to_do = refl\n')
    out.append(f'\npub spoilt_run_stopped_early : (r : Record) → r.history.entries.items ≡ stopped_early → r.sessions ≡ {sessions}\n'
               f'    → IsRun setting {run.budget} alone false r → ⊥\n'
               f'spoilt_run_stopped_early r has events =\n'
               f'    restless setting {run.budget} false stopped_early r has {sessions} events {nested([f"early_session_{s}" for s in born])} left_to_do refl\n')
    return ''.join(out)


def postings(run):
    """The calls of each posting; where the history has none of a number, the call was refused before it was posted."""
    out = [[] for _ in run.order]
    for actor, a in run.entries:
        if a[0] == 'post':
            calls = out[a[1]]
            calls += [None] * (a[2] - len(calls)) + [a]
    return out


EARLY = '(outcome.Refused (reason.Other (negsuc 32599)))'


def fronts(run):
    """What was posted, what was told of it, in which order, and what was noted."""
    if run.order is None:
        return ''
    answers = {a[1]: outcome(a[2]) for _, a in run.entries if a[0] == 'collect'}

    def call(a):
        if a is None:
            return f'call.Answered {EARLY}'
        return f'call.Post (record {{ service = {a[3]}; op = {text(a[4])}; value = {tree(a[5])} }})'

    def told(a):
        if a is None:
            return EARLY
        return answers[a[6][1]] if a[6][0] == 'ok' else f'(outcome.Refused {reason(a[6][1])})'
    all_postings = postings(run)
    rows = lines([f'record {{ calls = {listed([call(a) for a in calls])} }}' for calls in all_postings])
    tells = lines([f'Some {listed([told(a) for a in calls])}' for calls in all_postings])
    out = [f'\n-- what came in\nabbrev postings : List Posting\npostings = {rows}\n']
    out.append('\npub posted : posts_by first_worker history ≡ posts_of 0 postings\nposted = refl\n')
    out.append(f'\npub tells : told_from setting (past_of setting history) 0 postings ≡ {tells}\ntells = refl\n')
    out.append(f'\npub order : order_alone setting history first_worker {len(run.order)} ≡ {listed(run.order)}\norder = refl\n')
    out.append(f'\npub noted : notes setting history ≡ {text(run.notes)}\nunfolding digits\nnoted = refl\n')
    return ''.join(out)


def spent(run):
    """Whether a session used its whole budget and could act all the same."""
    if run.budget == 10000 or run.sessions is None or run.workers is not None:
        return ''
    used = [s for s in range(run.sessions) if len(run.events.get(s, [])) == run.budget]
    spends = used == [0] and run.events[0][-1][1] != 'Finish'
    if used and not spends and any(run.events[s][-1][1] != 'Finish' for s in used):
        return ''
    head = '\npub spent : (r : Record) → r.history.entries.items ≡ history → r.sessions ≡ sessions → IsSpent setting {0} r'
    out = ('\ncould_act : can_act setting (before_stop history) 0 events_0 ≡ {1}\nunfolding digits\ncould_act = refl\n' + head)
    if spends:
        proof = nested([PROOFS[a[0]] for a in calls(run, 0)])
        out = (f'\nat_the_stop : IsSession setting (before_stop history) 0 events_0\nunfolding digits\n'
               f'at_the_stop = is_session setting (before_stop history) 0 {run.service_of(0)} events_0 refl refl {proof}\n' + out
               + '\nspent = is_spent setting {0} history sessions events_0 at_the_stop refl refl could_act\n')
    else:
        out = out.replace('could_act : can_act setting (before_stop history) 0 events_0',
                          'could_act : spends setting {0} (before_stop history) 0 sessions') + (
            ' → ⊥\nspent = not_spent setting {0} history sessions could_act\n')
    return out.format(run.budget, 'true' if spends else 'false')


def says(name, what, value):
    return f'\npub {name} : {what} ≡ {value}\nunfolding digits\n{name} = refl\n'


def spoilt_sessions(run):
    """Records that are spoilt: events that are cut or exchanged, a run that stops in the middle, a posting that
    comes too soon, and the first one behind the start of a single service."""
    if run.sessions is None:
        return ''
    out = []
    for s in range(run.sessions):
        events = run.events.get(s, [])
        if events and events[-1][1] in CALLS:
            out.append(says('spoilt_event_cut_at_the_end',
                            f'agrees setting history {s} {lines([event(e) for e in events[:-1]])}', 'false'))
            break
    for s in range(run.sessions):
        events = run.events.get(s, [])
        i = next((i for i in range(len(events) - 1) if events[i][1:] != events[i + 1][1:] and events[i][0] == events[i + 1][0]), None)
        if i is not None:
            changed = events[:i] + [events[i + 1], events[i]] + events[i + 2:]
            out.append(says('spoilt_events_exchanged', f'agrees setting history {s} {lines([event(e) for e in changed])}', 'false'))
            break
    h = run.entries
    i = next((i for i, (s, a) in enumerate(h) if a[0] in ('reply', 'end')), None)
    if i is not None:
        out.append(says('spoilt_left_in_the_middle',
                        f'is_quiet setting {run.budget} (take {i} history) (sessions_at setting (take {i} history) 0 sessions)', 'false'))
        s = h[i][0]
        out.append(says('spoilt_call_left_out', f'agrees setting (with_at {i} [] history) {s} events_{s}', 'false'))
        first = next((a[1] for _, a in h if a[0] == 'post'), None)
        j = next((j for j in range(i, len(h)) if h[j][1][0] == 'post' and h[j][1][1] != first), None)
        if j is not None:
            moved = f'with_at {i} ({entry(h[j])} ∷ {entry(h[i])} ∷ []) (with_at {j} [] history)'
            out.append(says('spoilt_posted_too_soon', f'is_still setting {run.budget} ({moved}) sessions', 'false'))
    if run.workers is None and h[0][1][:2] == ('post', 0) and run.sessions and run.parsed.services[run.service_of(0)]['single']:
        k = next(k for k, (s, a) in enumerate(h) if s == 0 and a[0] == 'adopt')
        out.append(says('spoilt_posted_behind_the_start',
                        f'is_still setting {run.budget} ({entry(h[k])} ∷ with_at {k} [] history) sessions', 'false'))
    j = next((j for j in range(len(h) - 1) if h[j][1][0] == h[j + 1][1][0] == 'post' and h[j][1][1] == h[j + 1][1][1]), None)
    if j is not None:
        out.append(says('spoilt_post_apart', f'stand_together (with_at {j} ({entry(h[j])} ∷ record {{ actor = 0; act = act.End }} ∷ []) history)', 'false'))
    if run.budget < 10000 and len(run.events.get(0, [])) == run.budget and run.events[0][-1][1] != 'Finish':
        out.append(says('spoilt_budget_left', f'is_quiet setting {run.budget + 1} (before_stop history) sessions', 'false'))
    return ''.join(out)


def legal(run):
    proof = 'tt'
    for _ in run.entries:
        proof = f'(record {{ allowed = refl; reply = refl }}, {proof})'
    return f'\npub legal : IsLegal setting history\nlegal = {proof}\n'


def counted(run):
    return f'\npub legal : legal_entries setting history ≡ {len(run.entries)}\nlegal = refl\n'


# ---- spoilt copies

def live(run, i):
    """The sessions that were adopted before entry i and did not end."""
    before = run.entries[:i]
    return ({s for s, a in before if a[0] == 'adopt'} - {s for s, a in before if a[0] == 'end'})


def tells(run, e, m):
    """Whether an entry tells the answer of message m: a collect of it, or the answer of the call that sent it."""
    actor, a = e
    if a[0] == 'collect':
        return a[1] == m
    return a[0] == 'answer' and any(s == actor and b[0] == 'send' and b[1] == a[1] and b[6] == ('ok', m) for s, b in run.entries)


def spoils(run):
    """Each kind, the entry that is replaced, by what, and the first entry that is not legal then."""
    h = run.entries
    taker = {a[1]: s for s, a in h if a[0] == 'take'}
    accepted_at, op_of = {}, {}
    for i, (s, a) in enumerate(h):
        if a[0] in ('post', 'send') and a[6][0] == 'ok':
            accepted_at[a[6][1]] = i
            op_of[a[6][1]] = a[4] if a[0] == 'post' else run.operation_sent(s, a[2], a[3])
    other = ('value', (('i', 424242), []))
    stopped = next((i for i, (s, a) in enumerate(h) if a[0] == 'stop'), len(h))
    for i, (s, a) in enumerate(h):
        word = a[0]
        twice = [(s, a), (s, a)]
        if word == 'take':
            for m in sorted(taker):
                if taker[m] == s and m > a[1] and op_of[m] == op_of[a[1]] and accepted_at[m] < i:
                    yield 'take_not_the_oldest', i, [(s, ('take', m))], i
            for t in sorted(live(run, i) - {s}):
                yield 'taken_by_another_session', i, [(t, a)], i
            yield 'taken_twice', i, twice, i + 1
        if word == 'reply':
            yield 'answered_twice', i, twice, i + 1
            told = next((j for j in range(i + 1, len(h)) if tells(run, h[j], a[1])), None)
            if told is not None:
                yield 'answer_left_out', i, [], told - 1
                yield 'told_before_the_answer', i, [h[told], (s, a)], i
            for t in sorted(live(run, i) - {s}):
                yield 'reply_by_another_session', i, [(t, a)], i
        if word == 'send':
            yield 'call_number_skipped', i, [(s, (word, a[1] + 1) + a[2:])], i
            yield 'call_number_again', i, twice, i + 1
        if word in ('post', 'send'):
            if a[6][0] == 'ok':
                yield 'message_number_skipped', i, [(s, a[:6] + (('ok', a[6][1] + 1),))], i
                yield 'refused_without_cause', i, [(s, a[:6] + (('refused', -32001),))], i
            if a[6][0] == 'refused':
                accepted = sum(1 for m in accepted_at.values() if m < i)
                yield 'accepted_against_the_rules', i, [(s, a[:6] + (('ok', accepted),))], i
                another = -32002 if a[6][1] == -32003 else -32003
                yield 'refused_for_another_reason', i, [(s, a[:6] + (('refused', another),))], i
        if word == 'post':
            yield 'posted_by_a_session', i, [(0, a)], i
        if word == 'answer':
            yield 'another_outcome', i, [(s, (word, a[1], ('fault', 'x', (('v',), []))))], i
            yield 'answer_taken_twice', i, twice, i + 1
        if word == 'collect':
            yield 'another_answer_collected', i, [(s, (word, a[1], other))], i
            yield 'collected_twice', i, twice, i + 1
            if i < stopped:
                yield 'collected_by_another', i, [(s + 1, a)], i
        if word == 'adopt':
            yield 'adopted_for_another_service', i, [(s, ('adopt', a[1] + 1))], i
            yield 'adopted_twice', i, twice, i + 1
        if word == 'bind':
            yield 'bound_otherwise', i, [(s, a[:3] + (('bound',) if a[3][0] == 'fixed' else ('fixed',),))], i
            if a[3][0] == 'bound':
                yield 'bound_again', i, twice, i + 1
        if word == 'fetch':
            yield 'fetched_twice', i, twice, i + 1
            yield 'fetched_by_a_session', i, [(0, a)], i
        if word == 'answered':
            yield 'brought_twice', i, twice, i + 1
            yield 'brought_by_another', i, [(s + 1, a)], i
        if word == 'end':
            yield 'ended_twice', i, twice, i + 1
        if word == 'close':
            yield 'closed_twice', i, twice, i + 1
        if word == 'stop':
            yield 'stopped_twice', i, twice, i + 1
            yield 'stopped_by_a_session', i, [(0, a)], i
            yield 'adopted_after_the_stop', i, [(s, a), (0, ('adopt', 0))], i + 1
    # an entry left out, where a later one of its session needs it
    for i, (s, a) in enumerate(h):
        if a[0] == 'adopt' and i + 1 < len(h) and h[i + 1][0] == s:
            yield 'adoption_left_out', i, [], i
        if a[0] == 'take' and i + 1 < len(h) and h[i + 1] [0] == s and h[i + 1][1][:2] == ('reply', a[1]):
            yield 'take_left_out', i, [], i
    # two entries exchanged: a take before its adoption
    for i, (s, a) in enumerate(h[:-1]):
        t, b = h[i + 1]
        if a[0] == 'adopt' and b[0] == 'take' and s == t:
            yield 'take_before_the_adoption', i, [(t, b)], i


def spoilt(kind, n, i, entries, place):
    name = f'{kind}_{n}' if n else kind
    return (f'\npub spoilt_{name} : legal_entries setting (with_at {i} {listed([entry(e) for e in entries])} history) ≡ {place}\n'
            f'spoilt_{name} = refl\n')


def some_spoils(run, kinds, most):
    """At most so many spoilt copies of each kind, the first that there are."""
    out, count = [], {}
    for kind, i, entries, place in spoils(run):
        if place is None or (kinds and kind not in kinds) or count.get(kind, 0) >= most:
            continue
        out.append(spoilt(kind, count.get(kind, 0), i, entries, place))
        count[kind] = count.get(kind, 0) + 1
    return out


# a tuple with a place for each entry has a limit
MOST = 300

# what the runs over lines import beside what all do, in the place of what test_trials has itself
LINES = [
    ('std.specs.Str', 'is_utf8 chars'),
    ('std.specs.Float.Numeral', 'scan_numeral'),
    ('json.specs.Print', 'escape_byte'),
    ('json.specs.Json', 'value'),
    ('json.specs.Lex', 'punctuate lex'),
    ('json.specs.Text', 'content'),
    ('json.specs.Word', 'word after_number'),
    ('serde_json.specs.Read', 'number_of'),
    ('jsonrpc_text.specs.FromJson', 'root_name'),
    ('jsonrpc_text.specs.Posted', 'posted'),
    ('jsonrpc_text.specs.Responses', 'answer batch early_answer'),
    ('run_record.specs.Run', 'alone'),
    ('run_theorem.specs.Split', 'split all_lines said_lines'),
    ('run_theorem.specs.Texts', 'Came posting_of'),
    ('run_theorem.specs.Lines', 'come_in finished_before lines_in IsPrefix AreDue IsWritten WroteEarly'),
    ('std.specs.Prelude', '◌≢◌ suc length map'),
    ('std.proofs.Common', 'true≢false ap subst'),
    ('test_trials.proofs.Endings', 'causes last_of'),
]
COMPUTED = ('digits escape_byte is_utf8 chars encode scan_numeral value punctuate lex content word after_number number_of root_name '
            'posted answer batch early_answer split')


def of_lines(run, path, title):
    """That a history answers the lines that were read by those that were written."""
    global IMPORTS
    IMPORTS = [(m, n) for m, n in IMPORTS if not m.startswith('test_trials')] + LINES
    read, written = (pathlib.Path(path + end).read_text() for end in ('.jsonl', '.stdout'))
    return (given(run, title).replace('use Rattle.std.specs.Fmt', 'use lib.Utf8.{encode}\nuse Rattle.std.specs.Fmt', 1) + f'\n-- what was read\nabbrev read : List ℕ\nread = {text(read)}\n'
            f'\n-- what was written\nabbrev written : List ℕ\nwritten = {text(written)}\n'
            '\n-- what came in with the lines\nabbrev came : List Came\ncame = come_in (said_lines (all_lines read))\n'
            '\npub posted_all : posts_by first_worker history ≡ posts_of 0 (map posting_of came)\n'
            f'unfolding {COMPUTED}\nposted_all = refl\n'
            f'\npub noted_nothing : notes setting history ≡ {text(run.notes)}\nnoted_nothing = refl\n'
            '\npub answered : AreDue alone setting history came written\n'
            f'unfolding {COMPUTED}\n'
            f'answered = record {{ order = {listed(run.order)}; in_order = refl; lines = refl }}\n'
            + cut_short(run, written))


def cut_short(run, written):
    """The same where the output failed in the midst of its first line, and nothing is noted."""
    line = written[:written.index('\n') + 1] if '\n' in written else ''
    front, rest = line[:len(line) // 2], written[len(line) // 2:]
    return (f'\n-- what was not written of it\nabbrev rest : List ℕ\nrest = {text(rest)}\n'
            '\nrest_is_some : rest ≢ []\nrest_is_some h = true≢false (ap (λ l. elim l [ [] ↦ false | b ∷ bs ↦ true ]) h)\n'
            f'\n-- what was written of it\nabbrev cut : List ℕ\ncut = {text(front)}\n'
            '\npub cut_short : IsWritten causes written cut\ncut_short = (rest, rest_is_some, refl)\n'
            '\npub written_early : WroteEarly setting history came cut\n'
            f'unfolding {COMPUTED}\n'
            'written_early j long =\n'
            '    subst (λ (k : ℕ). IsPrefix (lines_in setting history came (finished_before setting history (length came) k)) cut)\n'
            '    (last_of (length came) j long) (_, refl)\n')


def module(run, title, kinds):
    global IMPORTS
    IMPORTS = IMPORTS + RUNS
    good = legal(run) if len(run.entries) <= MOST else counted(run)
    return (given(run, title) + good + ''.join(some_spoils(run, kinds, 1)) + sessions(run) + runs(run) + spoilt_sessions(run)
            + fronts(run) + spent(run))


if __name__ == '__main__':
    if sys.argv[1] == '--lines':
        print(of_lines(load_case(sys.argv[2]), sys.argv[2], sys.argv[3]), end='')
    elif sys.argv[1] == '--whole':
        run = load(sys.argv[2])
        print(given(run, sys.argv[2]) + counted(run) + sessions(run), end='')
    elif sys.argv[1] == '--spoilt':
        run = load(sys.argv[2])
        print(given(run, sys.argv[2]) + ''.join(some_spoils(run, (), int(sys.argv[3]))), end='')
    elif sys.argv[1] == '--case':
        kinds = () if sys.argv[4] == 'all' else sys.argv[4].split(',')
        print(module(load_case(sys.argv[2]), sys.argv[3], kinds), end='')
    else:
        run = load(sys.argv[1])
        print(given(run, sys.argv[1]) + counted(run), end='')
