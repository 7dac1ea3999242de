"""A connection without input or output, fed with a server's bytes worked by hand from the manual's "Message Flow"; and the clients over it, with a
server that plays such bytes."""
import asyncio
import random
import socket
import threading

import postgres_protocol as pg
from postgres_protocol import aio, client, errors, events
from postgres_protocol.connection import Connection, DecodeError, LogInError
from server import Exchange, frame

READY, AUTHENTICATED = frame(b'Z', b'I'), frame(b'R', b'\0\0\0\0')
SASL = frame(b'R', b'\0\0\0\x0aSCRAM-SHA-256\0\0')
DESCRIBED = frame(b'T', b'\0\2' + b'id\0' + b'\0' * 6 + b'\0\0\0\x17\0\4\xff\xff\xff\xff\0\0' + b'name\0' + b'\0' * 6 + b'\0\0\0\x19\xff\xff\xff\xff\xff\xff\0\0')
ONE = frame(b'T', b'\0\1' + b'x\0' + b'\0' * 6 + b'\0\0\0\x19\xff\xff\xff\xff\xff\xff\0\0')
ROW = frame(b'D', b'\0\2\0\0\0\4\0\0\0\7\0\0\0\5hello')


def connected(**given):
    """A connection that is logged in."""
    connection = Connection('alice', **given)
    connection.data_to_send()
    connection.receive_data(AUTHENTICATED + frame(b'S', b'TimeZone\0UTC\0') + frame(b'K', b'\0\0\0\1\0\0\0\2') + READY)
    events_of(connection)
    return connection


def events_of(connection):
    return list(iter(connection.next_event, None))


def check_log_in(same, raises):
    connection = Connection('alice', database='shop')
    same('startup', connection.data_to_send(), pg.startup([(b'user', b'alice'), (b'database', b'shop'), (b'client_encoding', b'UTF8')]))
    raises('a query before the log-in', pg.ProtocolError, 'WrongPhase', lambda: connection.query('SELECT 1'))
    same('nothing yet', connection.next_event(), None)
    whole = AUTHENTICATED + frame(b'S', b'TimeZone\0UTC\0') + frame(b'K', b'\0\0\0\1\0\0\0\2') + READY
    for at in range(len(whole)):
        connection.receive_data(whole[at:at + 1])
    same('logged in', events_of(connection), [events.Setting(None, 'TimeZone', 'UTC'), events.LoggedIn(1)])
    same('what it knows', (connection.status, connection.settings, connection.process_id, connection.secret_key), ('I', {'TimeZone': 'UTC'}, 1, b'\0\0\0\2'))
    for what, text, data, given in (
            ('no password is admitted', 'the server asks for no password', AUTHENTICATED, {'require_auth': ['scram-sha-256'], 'password': 'x'}),
            ('clear text is not admitted', 'the server asks for password', frame(b'R', b'\0\0\0\3'), {'require_auth': ['scram-sha-256'], 'password': 'x'}),
            ('md5 is not admitted', 'the server asks for md5', frame(b'R', b'\0\0\0\5abcd'), {'require_auth': ['scram-sha-256', 'none'], 'password': 'x'}),
            ('no signature', 'the server did not show', SASL + AUTHENTICATED, {'password': 'x'}),
            ('no channel binding', 'the server offers no channel binding', SASL, {'password': 'x', 'must_bind': True}),
            ('clear text in its place', 'the server asks for password', frame(b'R', b'\0\0\0\3'), {'password': 'x', 'must_bind': True}),
            ('no password in its place', 'the server asks for no password', AUTHENTICATED, {'must_bind': True}),
            ('no password given', 'the server asks for a password', SASL, {}),
            ('another mechanism', 'the server offers X, ', frame(b'R', b'\0\0\0\x0aX\0\0'), {'password': 'x'}),
            ('Kerberos', 'the server asks for AuthenticationKerberosV5', frame(b'R', b'\0\0\0\2'), {})):
        connection = Connection('alice', **given)
        connection.receive_data(data)
        raises(what, LogInError, text, connection.next_event)
        connection.data_to_send()
        same(what + ': no password is sent', connection.data_to_send(), b'')
    raises('a way that is none', ValueError, 'require_auth: one of ', lambda: Connection('alice', require_auth=['gss']))
    raises('a protocol option', ValueError, 'parameters: no protocol option ', lambda: Connection('alice', parameters={'_pq_.x': '1'}))


class LogIn:
    """A server that plays a log-in by the names of its messages, and the client with the password `pencil` that it plays it to."""
    FIXED = {'ok': AUTHENTICATED, 'ready': READY, 'sasl': SASL, 'clear': frame(b'R', b'\0\0\0\3'), 'md5': frame(b'R', b'\0\0\0\5abcd'),
             'first': frame(b'R', b'\0\0\0\x0br=x,s=,i=4096'), 'final': frame(b'R', b'\0\0\0\x0cv=' + b'A' * 43 + b'='), 'other': frame(b'R', b'\0\0\0\x0a\xff\0\0')}

    def __init__(self, **given):
        self.client, self.exchange, self.sent = Connection('alice', 'pencil', **given), None, []
        self.client.data_to_send()

    def message(self, name):
        """The message of this name: of an exchange that the client has begun, its texts."""
        sent = next((sent for sent in reversed(self.sent) if sent), b'')
        if name in ('first', 'few') and sent.startswith(b'p') and b'SCRAM-SHA-256\0' in sent:
            self.exchange = Exchange(b'pencil', sent[5:].split(b'\0', 1)[1][4:], 4096 if name == 'first' else 4095)
            return frame(b'R', b'\0\0\0\x0b' + self.exchange.first)
        if name == 'signed':
            self.right, final = self.exchange.final(sent[5:])
            return frame(b'R', b'\0\0\0\x0c' + final)
        return self.FIXED[name]

    def play(self, name):
        """Plays a message, and keeps what the client sends for it."""
        self.client.receive_data(self.message(name))
        try:
            return self.client.next_event()
        finally:
            self.sent.append(self.client.data_to_send())


def check_log_in_order(same, raises):
    """What a server sends out of order, or asks for beside what is admitted: no log-in, and nothing is sent for it."""
    unsigned, undue = 'the server did not show that it knows the password', 'the server sent %s, which has no place there'
    for names, text, given in (
            ('sasl ok', unsigned, {}), ('sasl first ok', unsigned, {}), ('sasl first final', unsigned, {}), ('sasl few', 'the server asks for fewer than 4096 rounds', {'least_rounds': 4096}),
            ('sasl first', 'the server asks for fewer than 4097 rounds', {'least_rounds': 4097}),
            ('first', undue % 'AuthenticationSaslContinue', {}), ('final', undue % 'AuthenticationSaslFinal', {}), ('sasl final', undue % 'AuthenticationSaslFinal', {}),
            ('sasl sasl', undue % 'AuthenticationSasl', {}), ('sasl clear', undue % 'AuthenticationCleartextPassword', {}), ('sasl md5', undue % 'AuthenticationMd5Password', {}),
            ('sasl first clear', undue % 'AuthenticationCleartextPassword', {}), ('sasl first signed clear', undue % 'AuthenticationCleartextPassword', {}),
            ('sasl first signed signed', undue % 'AuthenticationSaslFinal', {}), ('sasl first signed first', undue % 'AuthenticationSaslContinue', {}),
            ('sasl first first', undue % 'AuthenticationSaslContinue', {}), ('clear clear', undue % 'AuthenticationCleartextPassword', {}), ('clear sasl', undue % 'AuthenticationSasl', {}),
            ('clear', 'the server asks for password, which', {'require_auth': ['none']}), ('md5', 'the server asks for md5, which', {'require_auth': ['none']}),
            ('sasl', 'the server asks for scram-sha-256, which', {'require_auth': ['none']}), ('sasl', 'the server asks for scram-sha-256, which', {'require_auth': ['password', 'md5', 'none']}),
            ('other', 'the server offers what is no text, of which none is supported', {})):
        played, last = LogIn(**given), names.split()[-1]
        for name in names.split()[:-1]:
            same(names + ': no event', played.play(name), None)
        raises(names, LogInError, text, lambda: played.play(last))
        same(names + ': nothing is sent', played.sent[-1], b'')
        for name in ('ok', 'ready'):
            raises(names + ': for good', LogInError, text, lambda: played.play(name))
    for names in ('ready', 'sasl ready', 'sasl first ready', 'sasl first signed ready', 'clear ready'):
        played, steps = LogIn(), names.split()
        same(names + ': no log-in', ([played.play(name) for name in steps[:-1]], _rejected(lambda: played.play('ready'))), ([None] * (len(steps) - 1), True))
    played = LogIn()
    same('a whole log-in', ([played.play(name) for name in ('sasl', 'first', 'signed', 'ok', 'ready')], played.right), ([None] * 4 + [events.LoggedIn(1)], True))
    for name, answer in (('clear', pg.password_message(b'pencil')), ('md5', pg.password_message(pg.md5_answer(b'alice', b'pencil', b'abcd')))):
        played = LogIn()
        same(name, ([played.play(step) for step in (name, 'ok', 'ready')], played.sent), ([None, None, events.LoggedIn(1)], [answer, b'', b'']))
    raises('a password that no message holds', LogInError, 'the server sent AuthenticationCleartextPassword, which is rejected: EmbeddedNull', lambda: _asked(Connection('alice', 'a\0b')))


def check_versions(same, raises):
    """The versions that are asked for, what a server may answer about them, and the keys of each."""
    answer = lambda minor: frame(b'v', b'\0\3\0%c\0\0\0\0' % minor)
    key = lambda count: frame(b'K', b'\0\0\0\1' + b'k' * count)
    to_3_2, only = {'max_version': '3.2'}, {'min_version': '3.2', 'max_version': '3.2'}
    for given, minor, came, spoken in (({}, 0, [], '3.0'), (to_3_2, 2, [], '3.2'), (only, 2, [], '3.2'), (to_3_2, 2, [answer(0)], '3.0')):
        connection = Connection('alice', **given)
        same('packet %r' % given, connection.data_to_send()[4:8], b'\0\3\0%c' % minor)
        for message in (*came, AUTHENTICATED, key(4 if spoken == '3.0' else 32), READY):
            connection.receive_data(message)
        same('spoken %r' % given, (connection.next_event(), connection.version, len(connection.secret_key)), (events.LoggedIn(1), spoken, 4 if spoken == '3.0' else 32))
    told = 'the server names a version of the protocol, or an option, that was not asked for (versions %s to %s were)'
    for given, minors, text in (({}, (0, 1, 2, 3), told % ('3.0', '3.0')), (to_3_2, (1, 2, 3), told % ('3.0', '3.2')), (only, (0, 1, 2, 3), told % ('3.2', '3.2'))):
        for minor in minors:
            connection = Connection('alice', **given)
            connection.receive_data(answer(minor) + AUTHENTICATED + READY)
            raises('answered %r %d' % (given, minor), LogInError, text, connection.next_event)
    connection = Connection('alice')
    connection.receive_data(AUTHENTICATED + key(5))
    raises('a key of five bytes', pg.ProtocolError, 'LoginUndue', connection.next_event)
    raises('no versions', ValueError, 'min_version, max_version: ', lambda: Connection('alice', min_version='3.2'))


def _rejected(call):
    """Whether it raises, and for good."""
    for _ in range(2):
        try:
            return call() is None and 'nothing'
        except (LogInError, pg.ProtocolError):
            pass
    return True


def _asked(connection):
    connection.receive_data(LogIn.FIXED['clear'])
    return connection.next_event()


def check_encryption(same, raises):
    for answer, accepted in ((b'S', True), (b'N', False)):
        connection = Connection('alice', encrypt=True)
        same('ssl request', connection.data_to_send(), pg.ssl_request())
        connection.receive_data(answer)
        same('answer %r' % answer, connection.next_event(), events.Encryption(None, accepted))
    for data in (b'SZ', b'S' + READY, b'E', b'\0'):
        connection = Connection('alice', encrypt=True)
        connection.receive_data(data)
        raises('bytes %r' % data[:2], LogInError, 'the server answered the request for encryption with', connection.next_event)


def check_requests(same, raises):
    connection = connected()
    one, two = connection.parse('s', 'SELECT $1'), connection.describe('S', 's')
    three = connection.sync()
    same('sent', connection.data_to_send(), pg.parse(b's', b'SELECT $1') + pg.describe('S', b's') + pg.sync())
    connection.receive_data(frame(b'1', b'') + frame(b't', b'\0\1\0\0\0\x17') + frame(b'N', b'SNOTICE\0Mhi\0\0') + DESCRIBED + READY)
    got = events_of(connection)
    same('kinds', [type(e).__name__ for e in got], ['Completed', 'Parameters', 'Notice', 'Columns', 'Ready'])
    same('requests', [e.request for e in got], [one, two, None, two, three])
    connection.bind('', 's', [1], [b'\0\0\0\5'], [1])
    asked = connection.execute('', 0, (4, 1))
    last = connection.sync()
    connection.receive_data(frame(b'2', b'') + ROW * 3 + frame(b'C', b'SELECT 3\0') + READY)
    got = events_of(connection)
    same('rows', got[1:], [events.Rows(asked, [(7, 'hello')] * 3), events.CommandCompleted(asked, 'SELECT 3'), events.Ready(last, 'I')])
    asked = connection.execute('', 0, (4, lambda data: 1 // 0))
    last = connection.sync()
    connection.receive_data(ROW * 3 + frame(b'C', b'SELECT 3\0') + READY)
    raises('a decoder that raises', DecodeError, 'a value in the rows of request %d: ' % asked, connection.next_event)
    same('its rows are skipped', events_of(connection), [events.CommandCompleted(asked, 'SELECT 3'), events.Ready(last, 'I')])
    failing, after = connection.query('SELECT x'), connection.query('SELECT 1')
    connection.receive_data(frame(b'E', b'SERROR\0C42703\0Mno x\0\0') + READY + frame(b'C', b'SELECT 1\0') + READY)
    got = events_of(connection)
    same('an error', got[0], events.Failed(failing, {'S': 'ERROR', 'C': '42703', 'M': 'no x'}))
    same('each to its own', [e.request for e in got], [failing, failing, after, after])
    same('idle', connection.is_idle, True)
    connection.receive_data(frame(b'A', b'\0\0\0\1chan\0text\0'))
    same('a notification', events_of(connection), [events.Notification(None, 1, 'chan', 'text')])
    connection.receive_data(ROW)
    raises('a row that answers nothing', pg.ProtocolError, 'Unexpected', connection.next_event)
    connection = connected()
    connection.query('SELECT long')
    long = ONE + frame(b'D', b'\0\1' + (100000).to_bytes(4, 'big') + b'x' * 100000) + frame(b'C', b'SELECT 1\0') + READY
    got = []
    for at in range(0, len(long), 777):
        connection.receive_data(long[at:at + 777])
        got += events_of(connection)
    same('a long row in pieces', [type(e).__name__ for e in got], ['Columns', 'Rows', 'CommandCompleted', 'Ready'])
    connection = connected(max_message=100)
    connection.receive_data(b'D\0\0\1\0')
    raises('a message past the limit', pg.ProtocolError, 'ConnectionTooLong', connection.next_event)
    connection = connected()
    for what, call in (('data', lambda: connection.copy_data(b'x')), ('its end', connection.copy_done), ('its failure', lambda: connection.copy_fail('x'))):
        raises('no copy awaits ' + what, pg.ProtocolError, 'WrongPhase', call)
        same('no copy awaits %s: nothing is sent' % what, connection.data_to_send(), b'')
    copied = connection.query('COPY t FROM STDIN')
    connection.data_to_send()
    connection.receive_data(frame(b'G', b'\0\0\0'))
    same('a copy begins', events_of(connection), [events.CopyStarted(copied, 'CopyInResponse', [])])
    raises('a query in a copy', pg.ProtocolError, 'WrongPhase', lambda: connection.query('SELECT 1'))
    raises('a series in a copy', pg.ProtocolError, 'WrongPhase', lambda: connection.run(b'', b's', b'', [], b'', 0, (), True))
    connection.copy_data(b'1\n')
    connection.copy_done()
    same('what is sent in a copy', connection.data_to_send(), pg.copy_data(b'1\n') + pg.copy_done())
    connection.receive_data(frame(b'C', b'COPY 1\0') + frame(b'Z', b'X'))
    same('the end of a copy', connection.next_event(), events.CommandCompleted(copied, 'COPY 1'))
    raises('a status that is none', pg.ProtocolError, 'ConnectionNoStatus', connection.next_event)
    raises('nothing is asked after that', pg.ProtocolError, 'WrongPhase', lambda: connection.query('SELECT 1'))


def check_runs(same, raises):
    """A Bind, an Execute and a Sync by one call: the bytes of the three writers, of any size and any number before an answer."""
    connection, wanted, numbers = connected(), b'', []
    for number in range(200):
        values = [b'x' * (number * number), None, b'']
        numbers.append(connection.run(b'p', b's', b'\1\0\0\0\1\0', values, b'\1\0', number, (4, 1), number % 2 == 1))
        wanted += pg.bind(b'p', b's', [1, 0, 1], values, [1]) + pg.execute(b'p', number) + (pg.sync() if number % 2 else b'')
    same('what is sent', connection.data_to_send() == wanted, True)
    one, two = frame(b'2', b'') + ROW * 2 + frame(b's', b''), frame(b'2', b'') + frame(b'C', b'SELECT 0\0') + READY
    connection.receive_data((one + two) * 100)
    got = events_of(connection)
    same('each answer to its own', [e.request for e in got if isinstance(e, (events.Rows, events.CommandCompleted))], numbers)
    same('rows of each', [e.rows for e in got if isinstance(e, events.Rows)], [[(7, 'hello')] * 2] * 100)
    same('idle at its end', (connection.is_idle, connection.needs_sync), (True, False))
    for what, error, text, arguments in (
            ('a 0 byte', pg.ProtocolError, 'EmbeddedNull', (b'a\0', b's', b'', [], b'', 0, (), True)), ('formats', pg.ProtocolError, 'InvalidFormats', (b'', b's', b'\7\0', [b''], b'', 0, (), True)),
            ('a value that is no bytes', TypeError, 'expected bytes, str found', (b'', b's', b'', ['x'], b'', 0, (), True)),
            ('no list', TypeError, 'ask() argument 6 must be list', (b'', b's', b'', (b'x',), b'', 0, (), True))):
        raises(what, error, text, lambda: connection.run(*arguments))
        same(what + ': nothing is sent, and nothing asked', (connection.data_to_send(), connection.is_idle), (b'', True))
    raises('before the log-in', pg.ProtocolError, 'WrongPhase', lambda: Connection('alice').run(b'', b's', b'', [], b'', 0, (), True))
    connection.run(b'', b's', b'', [], b'', 0, (4, 1), True)
    connection.receive_data(frame(b'2', b'') + frame(b'2', b''))
    same('what came before a fault', connection.next_event(), events.Completed(connection.last_number - 2, 'BindComplete'))
    raises('and then the fault', pg.ProtocolError, 'Unexpected', connection.next_event)
    raises('for good', pg.ProtocolError, 'Unexpected', connection.next_event)


def check_mutations(same, raises):
    """Bytes of a session replaced at random, and in pieces of any size: a connection ends, and raises what its pages name."""
    draw, ended = random.Random(1), 0
    good = DESCRIBED + ROW * 3 + frame(b'C', b'SELECT 3\0') + READY
    for _ in range(2000):
        connection, data = connected(), bytearray(good)
        connection.query('SELECT')
        for _ in range(draw.randrange(5)):
            data[draw.randrange(len(data))] = draw.randrange(256)
        try:
            while data:
                size = draw.randrange(1, 60)
                connection.receive_data(bytes(data[:size]))
                del data[:size]
                events_of(connection)
        except (pg.ProtocolError, DecodeError, UnicodeDecodeError):
            ended += 1
    same('some were rejected, and some taken', 200 < ended < 1800, True)


def play(listening, answers, seen):
    """A server that answers each Sync, Query, CopyDone, CopyFail or Terminate with the next of these bytes; those in a tuple it sends once a request to cancel came."""
    peer = listening.accept()[0]
    file = peer.makefile('rb')
    file.read(int.from_bytes(file.read(4), 'big') - 4)
    peer.sendall(AUTHENTICATED + frame(b'K', b'\0\0\0\1\0\0\0\2') + READY)
    for answer in answers:
        if isinstance(answer, tuple):
            other = listening.accept()[0]
            seen.append((b'cancel', other.recv(16)))
            other.close()
            peer.sendall(answer[0])
            continue
        while True:
            try:
                tag = file.read(1)
            except ConnectionError:
                tag = b''
            payload = file.read(int.from_bytes(file.read(4), 'big') - 4) if tag else b''
            seen.append((tag, payload))
            if tag in (b'S', b'Q', b'X', b'c', b'f', b''):
                break
        if tag:
            peer.sendall(answer)
    peer.close()


def with_server(answers, run, seen=None):
    listening, seen = socket.create_server(('127.0.0.1', 0)), [] if seen is None else seen
    thread = threading.Thread(target=play, args=(listening, answers, seen), daemon=True)
    thread.start()
    result = run(listening.getsockname()[1])
    thread.join(10)
    listening.close()
    return result, seen


PREPARED = frame(b'1', b'') + frame(b't', b'\0\1\0\0\0\x17') + DESCRIBED + READY
IN_TRANSACTION = frame(b'1', b'') + frame(b'2', b'') + frame(b'C', b'BEGIN\0') + frame(b'2', b'') + ROW + ROW + frame(b'C', b'SELECT 2\0') + frame(b'Z', b'T')
COMMITTED = frame(b'C', b'COMMIT\0') + READY
FAILED = frame(b'E', b'SERROR\0C23505\0Mtwice\0\0') + READY


def check_client(same, raises):
    def run(port):
        with client.connect('127.0.0.1', port, 'alice', sslmode='disable') as connection:
            cursor = connection.cursor()
            cursor.execute('SELECT id, name FROM t WHERE id = $1', (5,))
            found = cursor.fetchone(), cursor.fetchall(), cursor.fetchone(), cursor.rowcount, [d[:2] for d in cursor.description]
        raises('an error by its SQLSTATE', errors.UniqueViolation, '23505: twice', lambda: connection.execute('SELECT id, name FROM t WHERE id = $1', (6,)))
        raises('too few values', client.InterfaceError, 'the statement has 1 parameters, and 0', lambda: connection.execute('SELECT id, name FROM t WHERE id = $1'))
        raises('a value of another type', client.DataError, 'a parameter is no value of its type', lambda: connection.execute('SELECT id, name FROM t WHERE id = $1', ('x',)))
        connection.close()
        raises('closed', client.InterfaceError, 'the connection is closed', lambda: connection.execute('SELECT 1'))
        return found
    found, seen = with_server([PREPARED, IN_TRANSACTION, COMMITTED, FAILED, b''], run)
    same('rows', found, ((7, 'hello'), [(7, 'hello')], None, 2, [('id', 23), ('name', 25)]))
    same('sent', [tag for tag, _ in seen], [b'P', b'D', b'S', b'P', b'B', b'E', b'B', b'E', b'S', b'Q', b'P', b'B', b'E', b'B', b'E', b'S', b'X'])


def check_asyncio(same, raises):
    async def run(port):
        async with await aio.connect('127.0.0.1', port, 'alice', sslmode='disable') as connection:
            result = await connection.execute('SELECT id, name FROM t WHERE id = $1', (5,))
        return result.rows, result.tag
    answered = frame(b'2', b'') + ROW + frame(b'C', b'SELECT 1\0') + READY
    found, _ = with_server([PREPARED, answered, b''], lambda port: asyncio.run(run(port)))
    same('asyncio', found, ([(7, 'hello')], 'SELECT 1'))


def check_sessions(same, raises):
    """All of them."""
    for check in (check_log_in, check_log_in_order, check_versions, check_encryption, check_requests, check_runs, check_mutations, check_client, check_asyncio):
        check(same, raises)
