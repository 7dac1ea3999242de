"""The exceptions of DB-API 2.0, chosen by an error's SQLSTATE."""
from typing import Any, Dict, NamedTuple, Optional, Type


class Warning(Exception):  # noqa: A001 (the name is DB-API's)
    """A warning; no call raises it."""


class Diag(NamedTuple):
    """The parts of a server's error, by name; None where the server says nothing of it."""
    severity: Optional[str]
    sqlstate: Optional[str]
    message_primary: Optional[str]
    message_detail: Optional[str]
    message_hint: Optional[str]
    statement_position: Optional[str]
    internal_position: Optional[str]
    internal_query: Optional[str]
    context: Optional[str]
    schema_name: Optional[str]
    table_name: Optional[str]
    column_name: Optional[str]
    datatype_name: Optional[str]
    constraint_name: Optional[str]
    source_file: Optional[str]
    source_line: Optional[str]
    source_function: Optional[str]
    severity_nonlocalized: Optional[str]


class Error(Exception):
    """What a call of a client raises. `sqlstate` and `fields` (by their letters) are those of the server's error, where it is one; `diag` has the
    fields by name."""

    def __init__(self, message: str, fields: Optional[Dict[str, str]] = None) -> None:
        self.fields: Dict[str, str] = fields or {}
        self.sqlstate: Optional[str] = self.fields.get('C')
        super().__init__(message)

    @property
    def diag(self) -> Diag:
        """The parts of the server's error: `diag.constraint_name`, `diag.message_detail`, .."""
        return Diag(*map(self.fields.get, 'SCMDHPpqWstcdnFLRV'))

    def __reduce__(self) -> Any:
        return type(self), (str(self), self.fields)


class InterfaceError(Error):
    """The client is used in a way that it can't serve: a closed connection, parameters that don't fit."""


class DatabaseError(Error):
    """An error of the server."""


class DataError(DatabaseError):
    """A value can't be processed (class 22)."""


class OperationalError(DatabaseError):
    """The connection or the server's operation failed (classes 08, 28, 40, 53 to 58)."""


class Broken(OperationalError):
    """There is no connection, or it broke."""


class Timeout(OperationalError):
    """A call took longer than its limit of time."""


class IntegrityError(DatabaseError):
    """A constraint is violated (class 23)."""


class InternalError(DatabaseError):
    """The server's or the transaction's state doesn't allow it (classes 24, 25, 2D, 38, 39, 3B, XX)."""


class ProgrammingError(DatabaseError):
    """The statement is wrong: syntax, names, privileges (classes 26, 34, 3D, 3F, 42, 44)."""


class NotSupportedError(DatabaseError):
    """The server doesn't support it (class 0A)."""


_CLASSES: Dict[str, Type[DatabaseError]] = {'0A': NotSupportedError, '22': DataError, '23': IntegrityError, 'XX': InternalError}
_CLASSES.update({c: OperationalError for c in ('08', '28', '40', '53', '54', '55', '57', '58')})
_CLASSES.update({c: InternalError for c in ('24', '25', '2D', '38', '39', '3B')})
_CLASSES.update({c: ProgrammingError for c in ('26', '34', '3D', '3F', '42', '44')})


#: The exceptions of single errors, by SQLSTATE (the manual's "PostgreSQL Error Codes"), as `errors.UniqueViolation`; each is one of its class.
_WORDS = '''0A000 FeatureNotSupported 22001 StringDataRightTruncation 22003 NumericValueOutOfRange 22007 InvalidDatetimeFormat 22008 DatetimeFieldOverflow
22012 DivisionByZero 22021 CharacterNotInRepertoire 22P02 InvalidTextRepresentation 23502 NotNullViolation 23503 ForeignKeyViolation 23505 UniqueViolation
23514 CheckViolation 23P01 ExclusionViolation 25006 ReadOnlySqlTransaction 25P02 InFailedSqlTransaction 25P03 IdleInTransactionSessionTimeout
28000 InvalidAuthorizationSpecification 28P01 InvalidPassword 3D000 InvalidCatalogName 3F000 InvalidSchemaName 40001 SerializationFailure 40P01 DeadlockDetected
42501 InsufficientPrivilege 42601 SyntaxError 42701 DuplicateColumn 42702 AmbiguousColumn 42703 UndefinedColumn 42704 UndefinedObject 42710 DuplicateObject
42804 DatatypeMismatch 42883 UndefinedFunction 42P01 UndefinedTable 42P02 UndefinedParameter 42P04 DuplicateDatabase 42P06 DuplicateSchema 42P07 DuplicateTable
53100 DiskFull 53200 OutOfMemory 53300 TooManyConnections 55000 ObjectNotInPrerequisiteState 55006 ObjectInUse 55P03 LockNotAvailable 57014 QueryCanceled
57P01 AdminShutdown 57P02 CrashShutdown 57P03 CannotConnectNow P0001 RaiseException P0002 NoDataFound P0003 TooManyRows'''.split()
_BY_STATE: Dict[str, Type[DatabaseError]] = {
    state: type(name, (_CLASSES.get(state[:2], DatabaseError),), {'__module__': __name__, '__doc__': 'SQLSTATE %s.' % state})
    for state, name in zip(_WORDS[::2], _WORDS[1::2])}
globals().update((kind.__name__, kind) for kind in _BY_STATE.values())


def __getattr__(name: str) -> Any:
    raise AttributeError('no error has the name %s' % name)  # (with this function here a checker of types takes the names above)


def of_fields(fields: Dict[str, str], kind: Type[DatabaseError] = DatabaseError) -> DatabaseError:
    """The exception of a server's error: that of its SQLSTATE, or of its class, as far as it is one of `kind`."""
    state, text = fields.get('C', ''), fields.get('M', '')
    found: Type[DatabaseError] = _BY_STATE.get(state, _CLASSES.get(state[:2], DatabaseError))
    for letter, words in (('P', ' (at character %s)'), ('D', '\nDETAIL: %s')):
        text += words % fields[letter] if fields.get(letter) else ''
    return (found if issubclass(found, kind) else kind)('%s: %s' % (state, text), fields)


def is_end(fields: Dict[str, str], request: Optional[int]) -> bool:
    """Whether a server's error ends the session."""
    return request is None or fields.get('V') in ('FATAL', 'PANIC')


def is_stale(error: Error) -> bool:
    """Whether a prepared statement is gone, or its columns changed."""
    return error.sqlstate == '26000' or (error.sqlstate == '0A000' and error.fields.get('R') == 'RevalidateCachedQuery')
