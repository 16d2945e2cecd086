"""The proved basin core from Python: a module over libbasin.so, with the standard library alone.

    import basin

    dock = basin.read(open('examples/dock.rec', 'rb').read())
    before = dock.total_depth()
    ran = dock.run(7200, {(0, 5): 1})       # 1 mm a step into column 0 of row 5
    print(ran.steps, dock.total_depth() - before)
    open('later.rec', 'wb').write(dock.write())

The calls are those of include/basin.h, which says what each does and why it may refuse. A refusal is an exception, Refused. Only a
step that would leave the bounds, 6, ends a run without one: `run` gives the steps done, and what stopped it.

The lists of a state are array('q'), and array('B') for the barriers; doubles are in array('d'). Other buffers of the same elements
will do too, as those of numpy: numpy.frombuffer(dock.h, 'int64').reshape(dock.n, dock.w) is a view of one, without a copy. Any numbers
and any lengths may stand in a state: the core tests them with each call. Numbers that C would cut off raise OverflowError here; kind
256 is not taken as 0.

Threads: calls share nothing, and let other threads of Python run. A state, or a list, that a call writes must not be in another call
at the same time.

The library is looked for where the environment variable BASIN_LIBRARY says; beside this file and in the folder above it, as
`./forecast install` puts it; and in the repository's target/, as `install/shared-library target/libbasin.so` does.
"""
import ctypes
import enum
import operator
import os
from array import array
from typing import NamedTuple, Optional

#: 10,000 times major, 100 times minor, and patch: that of the library that belongs to this module.
VERSION = 800

#: The kinds of boundary.
PERIODIC, CHANNEL, BASIN = 0, 1, 2
#: The edges of a cell that a barrier closes; for both, 3.
WEST, SOUTH = 1, 2
#: The most columns or rows of a grid, and the longest run of one call. `State.run` takes longer ones in parts.
LONGEST_SIDE, LONGEST_RUN = 64, 10_000


class Comparison(enum.IntEnum):
    """What two records are to each other."""
    SAME = 0
    FIRST_NEWER = 1
    SECOND_NEWER = 2
    CONFLICT = 3


class Trust(enum.IntEnum):
    """How far to trust the doubles of a probe: they are the whole numbers of `State.tendencies`, or Tu and Tv may be off by up to 64."""
    EXACT = 0
    NEAR = 1


# ---- refusals

_FIELDS = ('h', 'b', 'u', 'v', 'q', 'inflow', 'barriers')
# The values that follow the number of a refusal, and its cause in words.
_REFUSALS = {
    1: ((), 'unknown w, n or kind, or too long a run'),
    2: ((), 'a field of a wrong length, or too little work space'),
    3: ((), 'G, c or R outside its bounds'),
    4: (('field', 'cell'), '{field} outside its bounds, {place} {cell}'),
    5: (('field', 'cell'), '{field} on a closed edge, cell {cell}'),
    6: (('pass_', 'field', 'cell'), 'pass {pass_} leaves the bounds of {field}, cell {cell}'),
    7: (('offset',), 'a damaged record, at byte {offset}'),
    8: ((), 'a field or record to be filled is too short'),
    9: ((), 'milliseconds above 999'),
    10: ((), 'a probed cell outside the grid'),
}


class Refused(Exception):
    """A refusal of the core. What does not belong to its number is None.

    number  1 to 10, as in include/basin.h
    cause   the same in words
    field   'h', 'b', 'u', 'v', 'q', 'inflow' or 'barriers': with 4, 5 and 6
    cell    j*w + i for column i of row j: with 4, 5 and 6; of q the corner, in the same way
    pass_   1 or 2: with 6
    offset  of the bad tag, or the length of the record: with 7
    record  1 or 2, the one that is refused: of a comparison
    steps   the steps done: with 6, of a run
    """

    def __init__(self, number, values=(), record=None, steps=None, cause=None):
        super().__init__(number, values, record, steps, cause)
        self.number, self.record, self.steps = number, record, steps
        self.field = self.cell = self.pass_ = self.offset = None
        names, words = _REFUSALS[number]
        for name, value in zip(names, values):
            setattr(self, name, _FIELDS[value] if name == 'field' else value)
        self.cause = cause or words.format(**vars(self), place='corner' if self.field == 'q' else 'cell')

    def __str__(self):
        of = '' if self.record is None else f'record {self.record}: '
        return f'{of}refusal {self.number}: {self.cause}'


class Ran(NamedTuple):
    """How far a run came: the steps done, and the refusal of the next one, a 6, or None where all are done."""
    steps: int
    stopped: Optional[Refused]


class Probe(NamedTuple):
    """-D, Tu and Tv in double precision, of a cell or in lists of all cells, and how far to trust them."""
    trust: Trust
    dh: object
    du: object
    dv: object


# ---- the library

# A number is passed as its type in C; a list as a pointer and a length; a place for a result as a pointer alone.
_RANGES = {ctypes.c_uint8: (0, 2**8 - 1), ctypes.c_size_t: (0, 2**64 - 1), ctypes.c_uint64: (0, 2**64 - 1),
           ctypes.c_int64: (-2**63, 2**63 - 1)}
_NUMBERS = {'w': ctypes.c_size_t, 'n': ctypes.c_size_t, 'kind': ctypes.c_uint8,
            'g': ctypes.c_int64, 'c': ctypes.c_int64, 'r': ctypes.c_int64,
            'a': ctypes.c_int64, 'divisor': ctypes.c_int64, 'cell': ctypes.c_size_t,
            'steps': ctypes.c_uint64, 'seconds': ctypes.c_uint64, 'milliseconds': ctypes.c_uint64}
_PLACES = {'rounded': (ctypes.c_int64, 1), 'total': (ctypes.c_int64, 1), 'constants': (ctypes.c_int64, 3),
           'doubles': (ctypes.c_double, 3), 'answer': (ctypes.c_uint64, 8)}
# The elements of a list, by the code that array has for them.
_ELEMENTS = {'B': ctypes.c_uint8, 'd': ctypes.c_double, 'q': ctypes.c_int64}
_BYTES = ('barriers', 'record', 'first', 'second')  # the other lists have numbers of 64 bits, where no code is given

# What each function takes, in order. What it writes has a mark, and a list of doubles the code of these.
_STATE = 'w n kind g c r h b u v barriers'
_STEPPED = 'w n kind g c r h! b u! v! barriers inflow'
_FUNCTIONS = {
    'version': '',
    'rnd': 'a divisor rounded!',
    'potential_vorticity': f'{_STATE} q! answer!',
    'tendencies': f'{_STATE} q dh! du! dv! answer!',
    'probe': f'{_STATE} q cell doubles! answer!',
    'probe_grid': f'{_STATE} q dh:d! du:d! dv:d! answer!',
    'step': f'{_STEPPED} work! answer!',
    'run': f'{_STEPPED} steps work! answer!',
    'total_depth': f'{_STATE} total! answer!',
    'total_energy': f'{_STATE} total! answer!',
    'write': f'{_STATE} seconds milliseconds record! answer!',
    'read': 'record h! b! u! v! barriers! constants! answer!',
    'compare': 'first second answer!',
}


def _code(name):
    return 'B' if name in _BYTES else 'q'


def _words(function):
    """What a function takes: each by its name, the code of its elements where it is a list, and whether it is written."""
    for word in _FUNCTIONS[function].split():
        name, _, code = word.rstrip('!').partition(':')
        yield name, code or _code(name), word.endswith('!')


def _argtypes(function):
    for name, code, _ in _words(function):
        if name in _NUMBERS:
            yield _NUMBERS[name]
        elif name in _PLACES:
            yield ctypes.POINTER(_PLACES[name][0])
        else:
            yield ctypes.POINTER(_ELEMENTS[code])
            yield ctypes.c_size_t


def _places_of_library():
    named = os.environ.get('BASIN_LIBRARY')
    if named:
        return [named]
    here = os.path.dirname(os.path.realpath(__file__))
    return [os.path.normpath(os.path.join(here, place, 'libbasin.so')) for place in ('.', '..', '../target')]


def _load():
    places = _places_of_library()
    found = [place for place in places if os.path.isfile(place)]
    if not found:
        raise ImportError(f'libbasin.so is in none of these places: {", ".join(places)}. `./forecast install PREFIX` puts it '
                          'beside this module; or set BASIN_LIBRARY to the file')
    try:
        library = ctypes.CDLL(os.path.abspath(found[0]))
        for name in _FUNCTIONS:
            function = getattr(library, 'basin_' + name)
            function.argtypes, function.restype = list(_argtypes(name)), ctypes.c_uint64
    except (OSError, AttributeError) as trouble:
        raise ImportError(f'{found[0]} is not the library of basin.py: {trouble}') from None
    version = library.basin_version()
    if version != VERSION:
        raise ImportError(f'{found[0]} has version {version} and basin.py has {VERSION}: they do not belong together')
    return library


_library = _load()


# ---- how a function is called

def _number(name, value):
    low, high = _RANGES[_NUMBERS[name]]
    try:
        value = operator.index(value)
    except TypeError:
        raise TypeError(f'{name} is a whole number, not {type(value).__name__}') from None
    if not low <= value <= high:
        raise OverflowError(f'{name} is {value}, and goes from {low} to {high}')
    return value


def _as_list(name, values, code=None):
    """The values, where they are a buffer of the right elements; otherwise an array of them."""
    code = code or _code(name)
    try:
        view = memoryview(values)
    except TypeError:
        try:
            return array(code, values)
        except TypeError as trouble:
            raise TypeError(f'{name}: {trouble}') from None
        except OverflowError as trouble:
            raise OverflowError(f'{name}: {trouble}') from None
    wanted = ('q', 'l') if code == 'q' else (code,)
    if view.format.lstrip('@=<') not in wanted or view.itemsize != ctypes.sizeof(_ELEMENTS[code]) or not view.c_contiguous:
        raise TypeError(f"{name} is a row of array('{code}') or the like, not of elements '{view.format}'")
    return values


def _lent(name, values, code, written):
    """A list as an object of ctypes in the same memory, and its length."""
    element, lent = _ELEMENTS[code], _as_list(name, values, code)
    view = memoryview(lent)
    length = view.nbytes // view.itemsize
    if written and (lent is not values or view.readonly):
        raise TypeError(f"{name} is written, so it must be array('{code}') or the like, not {type(values).__name__}")
    if length == 0:
        return (element * 1)(), 0  # nothing is read there, but a null pointer will not do
    if view.readonly:
        return (element * length).from_buffer_copy(view), length
    return (element * length).from_buffer(lent), length


def _apart(lent):
    """What is written must share no memory with anything else. Each entry is a name, its memory, and whether it is written."""
    spans = [(name, ctypes.addressof(x), ctypes.addressof(x) + ctypes.sizeof(x), written) for name, x, written in lent]
    for k, (one, start, end, writes) in enumerate(spans):
        for other, start_too, end_too, writes_too in spans[k + 1:]:
            if (writes or writes_too) and start < end_too and start_too < end:
                raise ValueError(f'{one} and {other} share memory, and one of them is written')


def _call(function, **given):
    """Calls a function; returns what it returns, and its places for results by name."""
    arguments, lent, places = [], [], {}
    for name, code, written in _words(function):
        if name in _NUMBERS:
            arguments.append(_number(name, given.pop(name)))
        elif name in _PLACES:
            kind, length = _PLACES[name]
            places[name] = (kind * length)()
            arguments.append(places[name])
        else:
            memory, length = _lent(name, given.pop(name), code, written)
            lent.append((name, memory, written))
            arguments += [memory, length]
    assert not given, given
    _apart(lent)
    return getattr(_library, 'basin_' + function)(*arguments), places


def _checked(function, **given):
    """The same of a function that gives an answer, whose values are returned beside the places. A refusal is raised."""
    number, places = _call(function, **given)
    values = places['answer'][1:]
    if number:
        raise Refused(number, values)
    return values, places


# ---- the calls

def version():
    """The version of the library: VERSION, or this module would not have loaded."""
    return _call('version')[0]


def rnd(a, b):
    """a/b rounded to the nearest whole number, halves away from zero. Refused with 4 unless a is -2**58 to 2**58 and b 1 to 2**43."""
    number, places = _call('rnd', a=a, divisor=b)
    if number:
        raise Refused(number, cause='a or b outside its bounds')
    return places['rounded'][0]


def compare(first, second):
    """What two records, as bytes, are to each other: a Comparison."""
    number, places = _call('compare', first=first, second=second)
    _, next_, *values = places['answer']
    if number:
        raise Refused(number, values, record=next_)
    return Comparison(next_)


def read(record, room=LONGEST_SIDE**2):
    """The State of a record, which is bytes. `room` is the cells that there may be."""
    lists = {name: array('q', bytes(8 * room)) for name in ('h', 'b', 'u', 'v')}
    lists['barriers'] = array('B', bytes(room))
    (w, n, kind, seconds, milliseconds, *_), places = _checked('read', record=record, **lists)
    g, c, r = places['constants']
    return State(w, n, kind, g, c, r, **{name: values[:w * n] for name, values in lists.items()},
                 seconds=seconds, milliseconds=milliseconds)


class State:
    """A state of the water: w columns, n rows, the kind of boundary, the constants g, c and r, a number for each cell in h, b, u and
    v, a byte for each in barriers, and its moment, seconds and milliseconds since 2000-01-01 00:00.

    What is left out of b, u, v and barriers is 0 in each cell. A list that is a buffer is kept as it is, not copied.
    """

    def __init__(self, w, n, kind, g, c, r, h, b=None, u=None, v=None, barriers=None, seconds=0, milliseconds=0):
        self.w, self.n, self.kind, self.g, self.c, self.r = w, n, kind, g, c, r
        for name, values in (('h', h), ('b', b), ('u', u), ('v', v), ('barriers', barriers)):
            setattr(self, name, self._zeros(name) if values is None else _as_list(name, values))
        self.seconds, self.milliseconds = seconds, milliseconds

    def __repr__(self):
        return (f'State(w={self.w}, n={self.n}, kind={self.kind}, g={self.g}, c={self.c}, r={self.r}, '
                f'seconds={self.seconds}, milliseconds={self.milliseconds})')

    @property
    def cells(self):
        """w*n; 0 where w or n is not 1 to 64, which every call refuses."""
        w, n = _number('w', self.w), _number('n', self.n)
        return w * n if 1 <= w <= LONGEST_SIDE and 1 <= n <= LONGEST_SIDE else 0

    @property
    def corners(self):
        """The numbers of q, one a corner: w*n, of a channel w*(n+1) and of a basin (w+1)*(n+1), row by row from the southwest; 0 where
        w or n is not 1 to 64."""
        kind = _number('kind', self.kind)
        return self.cells and (self.w + (kind == BASIN)) * (self.n + (kind in (CHANNEL, BASIN)))

    def cell(self, i, j):
        """The place of column i of row j in the lists."""
        if not (0 <= i < self.w and 0 <= j < self.n):
            raise IndexError(f'there is no column {i} of row {j}')
        return j * self.w + i

    def copy(self):
        """The same state in lists of its own."""
        lists = {name: array(_code(name), memoryview(_as_list(name, getattr(self, name))).tobytes())
                 for name in ('h', 'b', 'u', 'v', 'barriers')}
        return State(self.w, self.n, self.kind, self.g, self.c, self.r, **lists,
                     seconds=self.seconds, milliseconds=self.milliseconds)

    def total_depth(self):
        """The sum of h, in mm."""
        return _checked('total_depth', **self._parts())[1]['total'][0]

    def total_energy(self):
        """Four times total energy."""
        return _checked('total_energy', **self._parts())[1]['total'][0]

    def potential_vorticity(self, q=None):
        """Potential vorticity at the corners, times spacing times 65,536. It is written into q, where that is lent."""
        q = array('q', bytes(8 * self.corners)) if q is None else q
        _checked('potential_vorticity', **self._parts(), q=q)
        return q

    def tendencies(self, q=None, dh=None, du=None, dv=None):
        """Tendencies dh, du and dv with a potential vorticity, a number a corner, the state's own where none is given. They are written
        into those that are lent."""
        q = self.potential_vorticity() if q is None else q
        dh, du, dv = (self._zeros('dh') if x is None else x for x in (dh, du, dv))
        _checked('tendencies', **self._parts(), q=q, dh=dh, du=du, dv=dv)
        return dh, du, dv

    def probe(self, cell, q=None):
        """-D, Tu and Tv of a cell in double precision, and how far to trust them: a Probe. The cell is its place in the lists, as
        `cell(i, j)` gives it. The potential vorticity is the state's own where none is given."""
        q = self.potential_vorticity() if q is None else q
        values, places = _checked('probe', **self._parts(), q=q, cell=cell)
        return Probe(Trust(values[0]), *places['doubles'])

    def probe_grid(self, q=None, dh=None, du=None, dv=None):
        """The same of every cell, in lists of doubles. They are written into those that are lent."""
        q = self.potential_vorticity() if q is None else q
        dh, du, dv = (array('d', bytes(8 * self.cells)) if x is None else x for x in (dh, du, dv))
        values, _ = _checked('probe_grid', **self._parts(), q=q, dh=dh, du=du, dv=dv)
        return Probe(Trust(values[0]), dh, du, dv)

    def step(self, inflow=None, work=None):
        """One step in place, refused with 6 where it would leave the bounds. `inflow` is a number for each cell, mm a step, or a
        dictionary from (i, j) to it. `work` is work space, made anew where none is lent. The moment is left as it is."""
        _checked('step', **self._parts(), inflow=self._inflow(inflow), work=self._work(work))

    def run(self, steps, inflow=None, work=None):
        """Up to so many steps in place, any number of them, as in `step`. Returns Ran."""
        steps, done = _number('steps', steps), 0
        inflow, work = self._inflow(inflow), self._work(work)
        while True:
            part = min(LONGEST_RUN, steps - done)
            number, places = _call('run', **self._parts(), inflow=inflow, steps=part, work=work)
            values = places['answer'][1:]
            if number == 6:
                done += values[3]
                return Ran(done, Refused(number, values[:3], steps=done))
            if number:
                raise Refused(number, values)
            done += values[0]
            if done == steps:
                return Ran(done, None)

    def write(self, record=None):
        """The record, as bytes. Where a bytearray is lent, it is written to its first bytes too."""
        record = bytearray(52 + 13 * self.cells) if record is None else record
        values, _ = _checked('write', **self._parts(), seconds=self.seconds, milliseconds=self.milliseconds, record=record)
        return bytes(memoryview(record)[:values[0]])

    def _parts(self):
        return {name: getattr(self, name) for name in _STATE.split()}

    def _zeros(self, name):
        return array('B', bytes(self.cells)) if name in _BYTES else array('q', bytes(8 * self.cells))

    def _work(self, work):
        return array('q', bytes(8 * 8 * self.cells)) if work is None else work

    def _inflow(self, inflow):
        if inflow is not None and not isinstance(inflow, dict):
            return _as_list('inflow', inflow)  # once: a run may be several calls
        mm = self._zeros('inflow')
        for (i, j), more in (inflow or {}).items():
            mm[self.cell(i, j)] += more
        return mm
