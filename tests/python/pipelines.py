"""Random pipelines whose parts fail, answered as the manual says ("Message Flow", "Extended Query"): behind an error a server passes over all up to the next
Sync. Each request ends once, by its answer or because it is passed over, in the order in which they were asked."""
import random

from postgres_protocol import events
from postgres_protocol.connection import Connection
from server import frame
from sessions import READY

AUTHENTICATED = frame(b'R', bytes(4)) + READY
FAILED = frame(b'E', b'SERROR\0C42601\0Mno\0\0')
DESCRIBED = frame(b'T', b'\0\1a\0' + bytes(4) + bytes(2) + b'\0\0\0\x17\0\4' + bytes(4) + bytes(2))
ROW, DONE = frame(b'D', b'\0\1\0\0\0\x011'), frame(b'C', b'SELECT 1\0')

#: What is asked, and the answers that a server may give.
CALLS = {
    'parse': (lambda c: c.parse('', 'SELECT 1'), [frame(b'1', b'')]),
    'bind': (lambda c: c.bind('', '', [], []), [frame(b'2', b'')]),
    'describe': (lambda c: c.describe('P', ''), [DESCRIBED, frame(b'n', b'')]),
    'execute': (lambda c: c.execute(''), [ROW + DONE, ROW + frame(b's', b''), frame(b'I', b''), DONE]),
    'close': (lambda c: c.close('S', 's'), [frame(b'3', b'')]),
    'sync': (lambda c: c.sync(), [READY]),
    'query': (lambda c: c.query('SELECT 1'), [DESCRIBED + ROW + DONE + READY, frame(b'I', b'') + READY, FAILED + READY, DONE + FAILED + READY]),
}


def pipeline(chance):
    """Words of CALLS, each with its answer; None is that of what is passed over."""
    skipping = False
    for word in chance.choices(list(CALLS), (4, 4, 3, 5, 1, 3, 2), k=chance.randint(1, 25)) + ['sync']:
        if skipping and word != 'sync':
            yield word, None
            continue
        skipping = word not in ('sync', 'query') and chance.random() < 0.2
        yield word, FAILED if skipping else chance.choice(CALLS[word][1])


def ends(chance):
    """The numbers that are answered and those that are passed over, in the order in which they end, and what is expected of them."""
    connection, wanted, found, answered = Connection('alice'), [], [], set()
    connection.receive_data(AUTHENTICATED)
    while connection.next_event():
        pass
    parts = list(pipeline(chance))
    for word, answer in parts:
        wanted.append((CALLS[word][0](connection), 'passed over' if answer is None else 'answered'))
    data = b''.join(answer or b'' for _, answer in parts)
    while data:
        piece = data[:chance.choice((1, 7, 100))]
        data = data[len(piece):]
        connection.receive_data(piece)
        for event in iter(connection.next_event, None):
            if isinstance(event, events.PassedOver):
                found.append((event.request, 'passed over'))
            elif event.request not in answered:
                answered.add(event.request)
                found.append((event.request, 'answered'))
    return found, wanted, connection.is_idle


def check_pipelines(same):
    chance = random.Random(1)
    for number in range(500):
        found, wanted, idle = ends(chance)
        same('pipeline %d: each request ends once' % number, (found, idle), (wanted, True))
