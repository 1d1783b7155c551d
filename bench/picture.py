#!/usr/bin/env python3
"""picture.py TOLD JOURNAL [FROM [TO]]: draws calls of a journal as `poad explain FILE JOURNAL --picture` does.

TOLD is what `poad explain FILE JOURNAL --arrival A` prints of each call, one behind the other, and JOURNAL the journal itself, which
says what was decided and who asks a reply. The picture goes to standard output. It is drawn by the rules of
crates/poad_audit/specs/Picture*.antt, which are written here anew, so that what the two draw can be compared byte by byte.
"""
import re
import sys

AT_WORK = ('trying', 'bringing', 'serving', 'running', 'closing')
HELD = [('manager', r'held: manager \d+ is HOLDING'),
        ('trial', r'held: a trial of a child of adapter \d+ is in flight'),
        ('turn', r'held: another request is in flight in adapter \d+'),
        ('main', r'held: the first worker alone may take it'),
        ('id', r'held: activation \d+ of its object is on its way in or out'),
        ('change', r'held: an incarnation or etherealization is unfinished in adapter \d+')]
WORDS = {
    'waiting': 'waits for a worker',
    'trying': 'the adapter activator is asked',
    'bringing': 'the servant activator is asked',
    'serving': 'a worker has it',
    'running': 'its servant ran',
    'closing': 'its reply was taken before its end',
    'pending': 'its answer waits',
    'replying': 'its reply waits to be taken',
}
BY_VERDICT = {'serve': 'serving', 'default': 'serving', 'locator': 'serving', 'incarnate': 'bringing', 'try': 'trying', 'wait': 'pending'}
# the looks: class, colour or hatch, and the words of the legend with their place
FREE = [
    ('waiting', '#d8d8d8', 100, 300, 'waits for a worker'),
    ('trying', '#e6a3d7', 6700, 300, 'the adapter activator is asked'),
    ('bringing', '#b39ddb', 8900, 300, 'the servant activator is asked'),
    ('serving', '#90c4f0', 2300, 300, 'a worker has it'),
    ('running', '#1f6fb4', 4500, 300, 'its servant ran'),
    ('closing', '#26734d', 13300, 440, 'its reply was taken before its end'),
    ('pending', '#2e8b3d;stroke-width:14;stroke-dasharray:20 20', 13300, 300, 'its answer waits'),
    ('replying', '#2e8b3d;stroke-width:14', 11100, 300, 'its reply waits to be taken'),
]
# and of each hatch: width, height, turn, ground, ink and mark
CAUSES = [
    ('manager', 50, 50, 45, '#fde0dc', '#d32f2f', 'M0 0H20V50H0z', 100, 'held: a manager is HOLDING'),
    ('trial', 50, 50, -45, '#fbe4f5', '#ad1487', 'M0 0H20V50H0z', 2300, 'held: a trial is in flight'),
    ('turn', 40, 50, 0, '#fff0d6', '#e07b00', 'M0 0H16V50H0z', 4500, 'held: one at a time'),
    ('main', 50, 40, 0, '#efe6e0', '#7a5548', 'M0 0H50V18H0z', 6700, 'held: for the first worker'),
    ('id', 50, 50, 45, '#dff3f1', '#00796b', 'M0 0H12V50H0zM0 0H50V12H0z', 8900, 'held: its object comes or goes'),
    ('change', 40, 40, 0, '#eef2cf', '#7a8500', 'M4 4H24V24H4z', 11100, 'held: the activator is busy'),
]
STEPS = ((20, 1), (100, 5), (200, 10), (1000, 50), (2000, 100), (10000, 500), (20000, 1000), (100000, 5000), (200000, 10000))


def phase_of(words, verdict, asks, before):
    """The phase that begins with an event behind another one, and its words."""
    for name, pattern in HELD:
        if held := re.match(pattern, words):
            return name, held[0]
    if words in ('arrived', 'waits for a worker') or words.startswith('the adapter activator made adapter'):
        phase = 'waiting'
    elif words.startswith('admitted') and verdict[0] in BY_VERDICT:
        phase = BY_VERDICT[verdict[0]]
    elif words.startswith('the servant activator brought ') and words != 'the servant activator brought none':
        phase = 'serving'
    elif words == 'its servant ran':
        phase = 'running'
    elif words.startswith('its reply was taken for writing'):
        phase = 'closing' if before == 'running' else 'over'
    elif not asks or (words == 'the request ended' and before == 'closing'):
        phase = 'over'
    else:
        phase = 'replying'
    return phase, WORDS.get(phase)


def told(path):
    """The calls: (arrival, connection, id, [(entry, words)])."""
    calls = []
    for line in open(path):
        line = line.rstrip('\n')
        if m := re.fullmatch(r'call (\d+), id (\d+) of connection (\d+), entry 0 in line \d+', line):
            calls.append((int(m[1]), int(m[3]), int(m[2]), []))
        elif m := re.fullmatch(r'call (\d+), a command of connection (\d+), entry 0 in line \d+', line):
            calls.append((int(m[1]), int(m[2]), None, []))
        elif m := re.fullmatch(r'entry (\d+) (.*)', line):
            calls[-1][3].append((int(m[1]), m[2]))
    return calls


def asks_reply(line):
    """Whether the call of an `arrive` line asks a reply."""
    words = line.split()
    return words[3] != 'request' or int(words[7]) % 2 == 1


def bars_of(call, entries):
    """Each phase of a call: (arrival, phase, words, worker, activation, begin, end)."""
    arrival, _, _, steps = call
    asks = asks_reply(entries[steps[0][0]])
    now, worker, activation, begin = ('over', None), None, None, 0
    for entry, words in steps:
        yield (arrival, *now, worker, activation, begin, entry)
        verdict = ['']
        if words.startswith('admitted'):
            _, by, _, *verdict = entries[entry].split()
            worker = int(by)
            activation = int(verdict[1]) if verdict[0] in ('serve', 'incarnate') else None
        now, begin = phase_of(words, verdict, asks, now[0]), entry
    yield (arrival, *now, worker, activation, begin, None)


class Window:
    def __init__(self, first, last):
        self.first = first
        self.span = min(max(last - first, 0), 999_999)

    def offset(self, entry):
        return self.span + 1 if entry is None else min(max(entry - self.first, 0), self.span + 1)

    def place(self, entry):
        return 1500 + self.offset(entry) * 14000 // (self.span + 1)

    def shows(self, begin, end):
        return self.offset(begin) < self.offset(end)


def bar_line(window, bar):
    arrival, phase, words, _, _, begin, end = bar
    ending = 'ended' if window.offset(end) <= window.span else 'open'
    until = ' on' if end is None else f' to {end}'
    return (f"<path class='{phase} {ending}' d='M{window.place(begin)} 50H{window.place(end)}'>"
            f'<title>call {arrival}: {words}, from entry {begin}{until}</title></path>\n')


def lanes_of(names, work):
    """The lanes: (label, whether a bar lies on it)."""
    for conn in sorted({name[1] for name in names}):
        yield f"<text class='lane' x='100' y='80'>connection {conn}</text>\n", lambda b: False
        for arrival, _, own in (name for name in names if name[1] == conn):
            label = f'call {arrival}, a command' if own is None else f'call {arrival}, id {own}'
            yield row(label), lambda b, a=arrival: b[0] == a
    for at, name, one in ((3, 'workers', 'worker'), (4, 'activations', 'activation')):
        yield f"<text class='lane' x='100' y='80'>{name}</text>\n", lambda b: False
        for number in sorted({b[at] for b in work if b[at] is not None}):
            yield row(f'{one} {number}'), lambda b, at=at, n=number: b[1] in AT_WORK and b[at] == n


def row(label):
    return f"<path class='row' d='M1500 50H15500'/><text x='200' y='80'>{label}</text>\n"


def picture(calls, entries, first, last):
    bars = [bar for call in calls for bar in bars_of(call, entries)]
    window = Window(first, min(last, max((b[5] for b in bars), default=0)))
    bars = [b for b in bars if b[1] != 'over' and window.shows(b[5], b[6])]
    names = [c[:3] for c in calls if any(b[0] == c[0] for b in bars)]
    lanes = list(lanes_of(names, [b for b in bars if b[1] in AT_WORK]))
    rows = len(lanes)
    yield f"<svg xmlns='http://www.w3.org/2000/svg' width='1600' height='{rows + 10}0' viewBox='0 0 16000 {rows + 10}00'>\n"
    yield '''<style>
text{font-family:sans-serif;font-size:82px;fill:#222}
.lane{font-weight:bold}
.tick{fill:#666;text-anchor:middle}
path{stroke-width:80}
.grid{stroke:#ddd;stroke-width:5}
.row{stroke:#eee;stroke-width:5}
.ended.replying,.ended.pending{marker-end:url(#head)}
</style>
<marker id='head' viewBox='0 0 10 10' refX='10' refY='5' markerWidth='70' markerHeight='70' markerUnits='userSpaceOnUse' orient='auto'>'''
    yield '''<path fill='#2e8b3d' d='M0 0L10 5L0 10z'/></marker>
<path fill='#fff' d='M0 0H16000V99999999H0z'/>
'''
    yield f"<text class='lane' x='100' y='170'>entries {window.first} to {window.first + window.span}, {len(names)} calls</text>\n"
    for css, colour, x, y, words in FREE:
        ended = ' ended' if css in ('replying', 'pending') else ''
        yield f"<style>.{css}{{stroke:{colour}}}</style>\n"
        yield f"<path class='{css}{ended}' d='M{x} {y}H{x + 300}'/><text x='{x + 350}' y='{y + 30}'>{words}</text>\n"
    for css, width, height, turn, ground, ink, mark, x, words in CAUSES:
        turned = f" patternTransform='rotate({turn})'" if turn else ''
        yield f"<pattern id='{css}' width='{width}' height='{height}' patternUnits='userSpaceOnUse'{turned}>"
        yield f"<path fill='{ground}' d='M0 0H50V50H0z'/><path fill='{ink}' d='{mark}'/></pattern>\n"
        yield f"<style>.{css}{{stroke:url(#{css})}}</style>\n"
        yield f"<path class='{css}' d='M{x} 440H{x + 300}'/><text x='{x + 350}' y='470'>{words}</text>\n"
    yield "<g transform='translate(0 800)'>\n"
    step = next((s for limit, s in STEPS if window.span < limit), 50000)
    for i in range(20):
        if i * step <= window.span:
            entry = window.first + i * step
            x = window.place(entry)
            yield f"<g transform='translate({x} 0)'><path class='grid' d='M0 0V{rows}00'/><text class='tick' y='-30'>{entry}</text></g>\n"
    for i, (label, lies) in enumerate(lanes):
        yield f"<g transform='translate(0 {i}00)'>\n{label}"
        for bar in bars:
            if lies(bar):
                yield bar_line(window, bar)
        yield '</g>\n'
    yield '</g>\n</svg>\n'


def main():
    entries = [line for line in open(sys.argv[2]).read().split('\n')[1:] if line and not line.startswith('stored')]
    first = int(sys.argv[3]) if len(sys.argv) > 3 else 0
    last = int(sys.argv[4]) if len(sys.argv) > 4 else 2 ** 64 - 1
    sys.stdout.writelines(picture(told(sys.argv[1]), entries, first, last))


if __name__ == '__main__':
    main()
