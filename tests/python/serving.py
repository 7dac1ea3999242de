"""A server's connection: bytes of the manual's "Message Formats", worked by hand, the exchange of RFC 7677, and a log-in with the package's own client."""
import postgres_protocol as pg
from postgres_protocol.reading import Field
from postgres_protocol.server import EXPECTED, ScramServer, ServerConnection

STORED = b'SCRAM-SHA-256$4096:W22ZaJ0SNY7soEsUEjb6gQ==$WG5d8oPm3OtcPnkdi4Uo7BkeZkBFzpcXkuLmtbsT4qY=:wfPLwcE6nTWhTAmQ7tl2KeoiWGPlZqQxSrmfPwDl2dU='
FIRST = b'n,,n=user,r=rOprNGfwEbeRWgbNEkqO'
CHALLENGE = b'r=rOprNGfwEbeRWgbNEkqO%hvYDpWUa2RaTCAfuxFIlj)hNlF$k0,s=W22ZaJ0SNY7soEsUEjb6gQ==,i=4096'
LAST = b'c=biws,r=rOprNGfwEbeRWgbNEkqO%hvYDpWUa2RaTCAfuxFIlj)hNlF$k0,p=dHzbZapWIk4jUhN+Ute9ytag9zjfMHgsqmmiz7AndVQ='


def read(connection, data):
    """The messages of these bytes, which come one at a time."""
    found = []
    for i in range(len(data)):
        connection.receive_data(data[i:i + 1])
        while (message := connection.next_message()) is not None:
            found.append(message)
    return found


def reading(same, refused):
    c = ServerConnection()
    [m] = read(c, b'\0\0\0\x19\0\3\0\2user\0alice\0app\0\0\0')
    same('startup', (m.kind, m.code, m.items, c.is_open), ('Startup', 2, [(b'user', b'alice'), (b'app', b'')], True))
    [m, n] = read(c, b'B\0\0\0\x23p\0s\0\0\2\0\1\0\0\0\2\0\0\0\3abc\xff\xff\xff\xff\0\3\0\1\0\0\xff\xff' + b'P\0\0\0\x1as\0SELECT $1\0\0\2\0\0\0\x17\0\0\0\0')
    same('bind', (m.kind, m.first, m.second, m.formats, m.items, m.result_formats), ('Bind', b'p', b's', [1, 0], [b'abc', None], [1, 0, 65535]))
    same('parse', (n.kind, n.first, n.second, n.items), ('Parse', b's', b'SELECT $1', [23, 0]))
    [m, n] = read(c, b'D\0\0\0\7Ss\0E\0\0\0\x0bpq\0\0\0\0\5')
    same('describe', (m.kind, m.letter, m.first, n.kind, n.first, n.number), ('Describe', 'S', b's', 'Execute', b'pq', 5))
    c.expected = EXPECTED[1]
    [m, n] = read(c, b'p\0\0\0\x0cM\0\0\0\0\2ab' + b'p\0\0\0\x0aM\0\xff\xff\xff\xff')
    same('mechanism', (m.kind, m.first, m.second, n.second), ('SaslInitialResponse', b'M', b'ab', None))
    c.receive_data(b'!\0\0\0\4S\0\0\0\4')
    refused('no message', 'UnknownTag', c.next_message)
    same('the next', c.next_message().kind, 'Sync')
    other = ServerConnection()
    other.receive_data(b'\0\0\0\x08\0\2\0\0')
    refused('version 2', 'UnknownPacket', other.next_message)


def writing(same, refused):
    c = ServerConnection()

    def sent(what, call, want):
        call()
        same(what, c.data_to_send(), want)
    sent('bare', lambda: (c.reply('AuthenticationOk'), c.reply('ParseComplete'), c.ready_for_query()), b'R\0\0\0\x08\0\0\0\0' b'1\0\0\0\4' b'Z\0\0\0\5I')
    sent('tag', lambda: c.reply('CommandComplete', b'SELECT 1'), b'C\0\0\0\x0dSELECT 1\0')
    sent('columns', lambda: c.row_description([Field('a', 0, 0, 23, 4, -1, 0)]), b'T\0\0\0\x1a\0\1a\0\0\0\0\0\0\0\0\0\0\x17\0\4\xff\xff\xff\xff\0\0')
    sent('row', lambda: c.data_row([b'a', None, b'']), b'D\0\0\0\x13\0\3\0\0\0\1a\xff\xff\xff\xff\0\0\0\0')
    sent('error', lambda: c.error([('S', b'ERROR'), ('C', b'42703'), ('M', b'')]), b'E\0\0\0\x15SERROR\0C42703\0M\0\0')
    sent('notice', lambda: c.error([('S', b'ERROR')], notice=True), b'N\0\0\0\x0cSERROR\0\0')
    sent('key', lambda: c.backend_key_data(-2, b'\0\0\0\7'), b'K\0\0\0\x0c\xff\xff\xff\xfe\0\0\0\7')
    sent('setting', lambda: c.parameter_status(b'Tim', b'eZ'), b'S\0\0\0\x0bTim\0eZ\0')
    sent('notification', lambda: c.notification(1, b'c', b'p'), b'A\0\0\0\x0c\0\0\0\1c\0p\0')
    sent('types', lambda: c.parameter_description([23, 0]), b't\0\0\0\x0e\0\2\0\0\0\x17\0\0\0\0')
    sent('copies', lambda: (c.copy_in(1, [1, 0]), c.copy_in(0, [], out=True)), b'G\0\0\0\x0b\1\0\2\0\1\0\0' b'H\0\0\0\7\0\0\0')
    sent('versions', lambda: c.negotiate_protocol_version(196608, [b'X']), b'v\0\0\0\x0e\0\3\0\0\0\0\0\1X\0')
    sent('md5', lambda: c.authentication_md5_password(b'salt'), b'R\0\0\0\x0c\0\0\0\5salt')
    sent('sasl', lambda: c.authentication_sasl([b'SCRAM-SHA-256', b'X']), b'R\0\0\0\x19\0\0\0\x0aSCRAM-SHA-256\0X\0\0')
    same('expected', c.expected, 'SaslInitialResponse')
    refused('no such message', 'UnknownKind', lambda: c.reply('DataRow'))
    refused('a 0 byte', 'EmbeddedNull', lambda: c.reply('CommandComplete', b'a\0b'))
    same('nothing', c.data_to_send(), b'')


def scram(same, refused):
    server = ScramServer(STORED, nonce=b'%hvYDpWUa2RaTCAfuxFIlj)hNlF$k0')
    same('RFC 7677, the first text', server.first(FIRST), CHALLENGE)
    same('RFC 7677, the final text', server.final(LAST), b'v=6rriTRBi23WpRR/wtup+mMhUZUn/dB5nLTJRsjl95G4=')
    refused('another proof', 'ScramInvalidProof', lambda: server.final(LAST.replace(b'dHzb', b'eHzb')))
    refused('no verifier', 'NotAVerifier', lambda: ScramServer(b'md5').first(FIRST))
    client, own = pg.Scram(b'pencil'), ScramServer(STORED)
    last = own.final(client.final(own.first(client.first())))
    same('both ends', client.verify(last), None)
    wrong, own = pg.Scram(b'pencils'), ScramServer(STORED)
    refused('another password', 'ScramInvalidProof', lambda: own.final(wrong.final(own.first(wrong.first()))))


def check_server(same, refused):
    reading(same, refused)
    writing(same, refused)
    scram(same, refused)
