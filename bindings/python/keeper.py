"""The TraceBench role keeper for Python: may this seat use this privilege?

    from keeper import Keeper, Refused

    keeper = Keeper()
    keeper.add_by_privileges(role=2, effective={0, 1})
    keeper.assign(seat=5, role=2)
    keeper.may(5, 1)                        # True
    keeper.activate(seat=5, role=2)
    keeper.may_active(5, 1)                 # True, by the roles that are switched on
    try:
        keeper.assign(seat=5, role=3)
    except Refused as refused:
        print(refused)                      # refused with 21, place 3: there is no role 3

    for record in records(import_sheet(text)):
        keeper.record(record)               # a role for each row of a permission sheet

The proved functions stand in the shared object libkeeper.so, which `make` builds from the archive libkeeper.a. It is
looked for in the folder KEEPER_LIBRARY, beside this file, and in the repository's target/shared.

docs/REFERENCE.md has the model, the calls and the refusals. Sets are given as any collection of numbers from 0 to 63
and come back as frozensets.
"""
import ctypes
import operator
import os
from pathlib import Path

__all__ = ['Keeper', 'Refused', 'image_length', 'import_sheet', 'import_sheet_into', 'records',
           'WORDS', 'LONGEST_IMAGE', 'RECORD']

# How many words a state takes, how many bytes the longest image has, and how many a record.
WORDS = 321
LONGEST_IMAGE = 5182
RECORD = 32
# The answer for a block of fewer words, what is added to a refusal that stands in the place of a length, and what is
# added to a row that stands in the place of a tape's length.
NO_STATE = 65535
NOT_SAVED = 65536
NOT_IMPORTED = 2 ** 63

_BLOCK, _WORDS = ctypes.POINTER(ctypes.c_uint64), ctypes.c_size_t
_BYTES, _LENGTH = ctypes.POINTER(ctypes.c_uint8), ctypes.c_size_t
_U8, _U32, _U64, _BOOL = ctypes.c_uint8, ctypes.c_uint32, ctypes.c_uint64, ctypes.c_bool

# The functions of include/keeper.h: the result, then the parameters behind the block and its words.
_FUNCTIONS = {
    'keeper_fresh': (_U32,),
    'keeper_call': (_U32, _BYTES, _LENGTH),
    'keeper_save': (_U32, _BYTES, _LENGTH),
    'keeper_load': (_U32, _BYTES, _LENGTH),
    'keeper_may': (_BOOL, _U32, _U32),
    'keeper_ask': (_U32, _U8, _U8),
    'keeper_may_active': (_BOOL, _U32, _U32),
    'keeper_ask_active': (_U32, _U8, _U8),
    'keeper_count_yes': (_U64, _BYTES, _LENGTH),
    'keeper_edge_count': (_U32,),
    'keeper_effective': (_U64, _U8),
    'keeper_direct': (_U64, _U8),
    'keeper_juniors': (_U64, _U8),
    'keeper_seniors': (_U64, _U8),
    'keeper_is_below': (_BOOL, _U8, _U8),
    'keeper_is_declared': (_BOOL, _U8, _U8),
    'keeper_seat_roles': (_U64, _U8),
    'keeper_seat_holds': (_U64, _U8),
    'keeper_active_roles': (_U64, _U8),
    'keeper_is_excluded': (_BOOL, _U8, _U8),
}
# Those that have no block: the result, then the parameters.
_BLOCKLESS = {
    'keeper_image_length': (_U32, _BYTES, _LENGTH),
    'keeper_import': (_U64, _BYTES, _LENGTH, _BYTES, _LENGTH),
}

# What each refusal means, with its place.
_TEXTS = {
    1: 'not the 32 bytes of a call',
    2: '{place} is above 63',
    3: 'role {place} is an end role, which no call names',
    4: 'privilege {place} cannot be in conflict with itself',
    5: 'role {place} cannot be its own junior or senior, or exclude itself',
    6: 'no image ends the bytes',
    7: 'an entry of the image is out of range or out of order',
    8: 'the roles, conflicts and seats of the image do not go together',
    9: 'the buffer is shorter than the image',
    20: 'role {place} is there already',
    21: 'there is no role {place}',
    22: 'it is so already (place {place})',
    23: 'it is not so (place {place})',
    31: 'role {place} has the privilege through a junior',
    24: 'seat {place} still has the role',
    25: 'role {place} would lie in a circle',
    26: 'role {place} would still hold all that the junior holds',
    27: 'role {place} would be empty',
    28: 'role {place} would hold what another role holds',
    29: 'role {place} would hold privileges in conflict',
    30: 'seat {place} would hold privileges in conflict',
    34: 'no role of seat {place} reaches the role',
    35: "role {place} and one that it excludes would be joined by a path or by a seat's active roles",
    32: 'row {place} is not one of a sheet, or has a number out of range',
    33: 'the buffer is shorter than the tape',
}


def _loaded():
    """The shared object with its functions declared. Calls keep Python's lock, so that threads take turns."""
    own = Path(__file__).resolve().parent
    given = os.environ.get('KEEPER_LIBRARY')
    folders = [Path(given)] if given else [own, own.parent.parent / 'target/shared']
    found = [folder / 'libkeeper.so' for folder in folders if (folder / 'libkeeper.so').is_file()]
    if not found:
        tried = ' nor '.join(str(folder) for folder in folders)
        raise ImportError(f"libkeeper.so stands neither in {tried}: run `make` in the repository's top folder, "
                          'which proves the library and builds it, or name its folder by KEEPER_LIBRARY')
    library = ctypes.PyDLL(str(found[0]))
    for functions, front in [(_FUNCTIONS, (_BLOCK, _WORDS)), (_BLOCKLESS, ())]:
        for name, (result, *parameters) in functions.items():
            function = getattr(library, name)
            function.restype, function.argtypes = result, (*front, *parameters)
    return library


_library = _loaded()


class Refused(ValueError):
    """A call, a load, a save or an import is refused; nothing is changed. It has a number, a place and a text."""

    def __init__(self, number, place):
        text = _TEXTS.get(number, 'a refusal that this module does not know').format(place=place)
        super().__init__(f'refused with {number}, place {place}: {text}')
        self.number, self.place, self.text = number, place, text

    def __reduce__(self):
        return Refused, (self.number, self.place)


def _accepted(answer):
    """The answer, or the refusal that it is."""
    if answer >= 256:
        raise Refused(answer // 256, answer % 256)
    return answer


def _length(answer):
    """The length, or the refusal that stands in its place."""
    if answer >= NOT_SAVED:
        _accepted(answer - NOT_SAVED)
    return answer


def _number(number):
    """A number of a record. One that no byte holds would become another number on its way, and so goes nowhere."""
    number = operator.index(number)
    if not 0 <= number <= 255:
        raise Refused(2, number)
    return number


def _word(members):
    """The word of a set."""
    word = 0
    for member in members:
        member = operator.index(member)
        if not 0 <= member <= 63:
            raise Refused(2, member)
        word |= 1 << member
    return word


def _set(word):
    return frozenset(member for member in range(64) if word >> member & 1)


def _bytes(given):
    """Bytes as the functions take them: where they stand and how many there are."""
    given = bytes(given)
    return (ctypes.c_uint8 * len(given)).from_buffer_copy(given), len(given)


def image_length(given):
    """How long the image is that ends the bytes; what precedes it is not read. Refused as loading is."""
    return _length(_library.keeper_image_length(*_bytes(given)))


def _room(buffer):
    """A writable buffer as the functions take it: where it stands and how long it is."""
    view = memoryview(buffer).cast('B')
    return (ctypes.c_uint8 * len(view)).from_buffer(view), len(view)


def import_sheet_into(text, buffer):
    """Writes the tape of a permission sheet to the front of a writable buffer and gives its length.

    A refusal with 32 has as its place the first row that is wrong, the heading being row 1; 33 is a buffer that is
    shorter than the tape. Neither touches the buffer.
    """
    given = _library.keeper_import(*_bytes(text), *_room(buffer))
    if given == NOT_IMPORTED:
        raise Refused(33, 0)
    if given > NOT_IMPORTED:
        raise Refused(32, given - NOT_IMPORTED)
    return given


def import_sheet(text):
    """The tape of a permission sheet, a record of kind 2 for each row behind the heading, in row order.

    A refusal with 32 has as its place the first row that is wrong, the heading being row 1.
    """
    text = bytes(text)
    # A row behind the heading has five bytes at least, with the line end before it.
    tape = bytearray(len(text) // 5 * RECORD)
    length = import_sheet_into(text, tape)
    return bytes(memoryview(tape)[:length])


def records(tape):
    """The records of a tape; bytes left over at the end are one too."""
    return [tape[at:at + RECORD] for at in range(0, len(tape), RECORD)]


def _pairs(test):
    """The pairs of numbers for which a test holds, the lower first, ascending."""
    return [(low, high) for low in range(64) for high in range(low + 1, 64) if test(low, high)]


class Keeper:
    """A keeper: the roles with their privileges, the conflicts, and the roles of the seats; and the roles that exclude
    each other and the active roles of the seats, which no image keeps.

    Fresh, or with the state of the image that ends the bytes given.
    """

    def __init__(self, image=None):
        self._words = (ctypes.c_uint64 * WORDS)()
        self._block = self._words, WORDS
        _accepted(_library.keeper_fresh(*self._block))
        if image is not None:
            self.load(image)

    # ---- the calls

    def record(self, record):
        """Takes a record of any bytes; gives True and False for an ask, and None for another call."""
        record = bytes(record)
        answer = _accepted(_library.keeper_call(*self._block, *_bytes(record)))
        return answer == 1 if record[0] == 12 else None

    def _call(self, kind, a, b=0, sets=((), (), ())):
        words = b''.join(_word(members).to_bytes(8, 'little') for members in sets)
        return self.record(bytes([kind, _number(a), _number(b), 0, 0, 0, 0, 0]) + words)

    def add_by_place(self, *, role, direct=(), juniors=(), seniors=()):
        """Kind 1: a role by its direct privileges, its juniors and its seniors."""
        self._call(1, role, 0, (direct, juniors, seniors))

    def add_by_privileges(self, *, role, effective):
        """Kind 2: a role by its effective privileges."""
        self._call(2, role, 0, (effective, (), ()))

    def remove_role(self, *, role, keep=False):
        """Kind 3: a role goes; its direct privileges are dropped, or kept in each of its immediate seniors."""
        self._call(3, role, 1 if keep else 0)

    def grant(self, *, privilege, role):
        """Kind 4: a privilege to a role."""
        self._call(4, role, privilege)

    def withdraw(self, *, privilege, role):
        """Kind 5: a direct privilege from a role."""
        self._call(5, role, privilege)

    def add_edge(self, *, junior, senior):
        """Kind 6: an edge is added."""
        self._call(6, junior, senior)

    def remove_edge(self, *, junior, senior):
        """Kind 7: a drawn edge is removed."""
        self._call(7, junior, senior)

    def declare(self, first, second):
        """Kind 8: two privileges are declared to be in conflict."""
        self._call(8, first, second)

    def lift(self, first, second):
        """Kind 9: a conflict is lifted."""
        self._call(9, first, second)

    def assign(self, *, seat, role):
        """Kind 10: a seat gets a role."""
        self._call(10, seat, role)

    def unassign(self, *, seat, role):
        """Kind 11: a seat loses a role."""
        self._call(11, seat, role)

    def exclude(self, first, second):
        """Kind 13: two roles exclude each other, until one of them is removed."""
        self._call(13, first, second)

    def activate(self, *, seat, role):
        """Kind 14: a role is switched on at a seat, and becomes one of its active roles."""
        self._call(14, seat, role)

    def deactivate(self, *, seat, role):
        """Kind 15: an active role of a seat is switched off."""
        self._call(15, seat, role)

    # ---- the questions

    def _ask(self, function, seat, privilege):
        """The yes or no of a question that refuses a number above 63."""
        return _accepted(function(*self._block, _number(seat), _number(privilege))) == 1

    def _may(self, function, seat, privilege):
        """The yes or no of a question that says no for a number outside 0 to 63."""
        seat, privilege = operator.index(seat), operator.index(privilege)
        if not (0 <= seat <= 63 and 0 <= privilege <= 63):
            return False
        return function(*self._block, seat, privilege)

    def ask(self, seat, privilege):
        """Kind 12: whether a seat may use a privilege; a number above 63 is refused."""
        return self._ask(_library.keeper_ask, seat, privilege)

    def may(self, seat, privilege):
        """Whether a seat may use a privilege; False for every number outside 0 to 63."""
        return self._may(_library.keeper_may, seat, privilege)

    def ask_active(self, seat, privilege):
        """Whether a seat may use a privilege by its active roles alone; a number above 63 is refused."""
        return self._ask(_library.keeper_ask_active, seat, privilege)

    def may_active(self, seat, privilege):
        """Whether a seat may use a privilege by its active roles alone; False for every number outside 0 to 63."""
        return self._may(_library.keeper_may_active, seat, privilege)

    def count_yes(self, asks):
        """How many of the asks, a seat and a privilege each, are answered yes."""
        flat = bytes(_number(number) for seat, privilege in asks for number in (seat, privilege))
        return _library.keeper_count_yes(*self._block, *_bytes(flat))

    # ---- images

    def load(self, image):
        """Loads the image that ends the bytes: no roles then exclude each other, and none is active. A refused load
        keeps the state."""
        _accepted(_library.keeper_load(*self._block, *_bytes(image)))

    def save(self):
        """The image. The roles that exclude each other and the active roles are not in it."""
        buffer = (ctypes.c_uint8 * LONGEST_IMAGE)()
        return bytes(buffer[:_length(_library.keeper_save(*self._block, buffer, LONGEST_IMAGE))])

    def save_into(self, buffer):
        """Writes the image to the front of a bytearray or another writable buffer and gives its length."""
        return _length(_library.keeper_save(*self._block, *_room(buffer)))

    # ---- what a keeper shows

    def roles(self):
        """The ordinary roles that are present."""
        return _set(self._words[0])

    def edge_count(self):
        """How many edges are drawn."""
        return _library.keeper_edge_count(*self._block)

    def edges(self):
        """The drawn edges, junior and senior, ascending."""
        return [(junior, senior) for junior in range(64) for senior in sorted(self.seniors(junior))]

    def effective(self, role):
        """The effective privileges of a role."""
        return _set(_library.keeper_effective(*self._block, _number(role)))

    def direct(self, role):
        """The direct privileges of a role: its effective ones that no immediate junior has."""
        return _set(_library.keeper_direct(*self._block, _number(role)))

    def juniors(self, role):
        """The immediate juniors of a role."""
        return _set(_library.keeper_juniors(*self._block, _number(role)))

    def seniors(self, role):
        """The immediate seniors of a role."""
        return _set(_library.keeper_seniors(*self._block, _number(role)))

    def is_below(self, junior, senior):
        """Whether the first role lies below the second."""
        return _library.keeper_is_below(*self._block, _number(junior), _number(senior))

    def is_declared(self, first, second):
        """Whether the conflict of two privileges is declared."""
        return _library.keeper_is_declared(*self._block, _number(first), _number(second))

    def conflicts(self):
        """The declared conflicts, the lower privilege first, ascending."""
        return _pairs(self.is_declared)

    def seat_roles(self, seat):
        """The roles of a seat."""
        return _set(_library.keeper_seat_roles(*self._block, _number(seat)))

    def seat_holds(self, seat):
        """What a seat holds: the union of the effective privileges of its roles."""
        return _set(_library.keeper_seat_holds(*self._block, _number(seat)))

    def active_roles(self, seat):
        """The active roles of a seat."""
        return _set(_library.keeper_active_roles(*self._block, _number(seat)))

    def is_excluded(self, first, second):
        """Whether two roles exclude each other, in either order."""
        return _library.keeper_is_excluded(*self._block, _number(first), _number(second))

    def exclusions(self):
        """The pairs of roles that exclude each other, the lower role first, ascending."""
        return _pairs(self.is_excluded)
