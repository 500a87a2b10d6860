"""The store of one thread, from Python: sums, maxima, capped sums and counts of numbers by name, and cells of 64 bytes by name.

    import fkv

    with fkv.Store(fkv.SUM, memory="64M") as store:
        store.rmw("apples", 5)    # 5
        store["apples"]           # 5
        for name in store: ...    # names rising, as strings of bytes

    with fkv.Cells() as cells:
        cells["apples"] = bytes(64)

A name is a str (its UTF-8) or bytes, of 1 to 31 bytes. A call that is refused raises `Fault`, has done nothing, and the store can be used
on. A store belongs to the thread that made it.

`examples/try_bindings` makes the library that this file loads, libfkv.so: beside this file, or where FKV_LIBRARY says. What its calls do
is proved (crates/fkv_c); this file is not, it is tested.
"""

import ctypes
import os
import re

SUM, MAX, CAPPED_SUM, COUNT = 1, 2, 3, 4

_CELLS = 5

_CLOSED, _BAD_KIND = 32, 37
_ABSENT, _DECLINED = 1, 4


class _Handle(ctypes.Structure):
    _fields_ = [("at", ctypes.c_void_p)]


class _Number(ctypes.Structure):
    _fields_ = [("low", ctypes.c_uint64), ("high", ctypes.c_int64)]

    def value(self):
        return (self.high << 64) + self.low


class _Answer(ctypes.Structure):
    _fields_ = [("kind", ctypes.c_uint64), ("value", _Number)]


class _Pair(ctypes.Structure):
    _fields_ = [
        ("is_some", ctypes.c_uint64),
        ("length", ctypes.c_uint64),
        ("name", ctypes.c_char * 32),
        ("value", _Number),
    ]


class _Cell(ctypes.Structure):
    _fields_ = [("bytes", ctypes.c_ubyte * 64)]

    def value(self):
        return bytes(self.bytes)


class _CellAnswer(ctypes.Structure):
    _fields_ = [("kind", ctypes.c_uint64), ("value", _Cell)]


class _CellPair(ctypes.Structure):
    _fields_ = [*_Pair._fields_[:3], ("value", _Cell)]


class _Settings(ctypes.Structure):
    _fields_ = [
        (field, ctypes.c_uint64)
        for field in ("id", "partition_bits", "bucket_bits", "page_bits", "frames", "turns")
    ]


class _Sizes(ctypes.Structure):
    _fields_ = [(field, ctypes.c_uint64) for field in ("bytes", "evicted", "moments")]


def _load():
    path = os.environ.get("FKV_LIBRARY") or os.path.join(os.path.dirname(os.path.abspath(__file__)), "libfkv.so")
    library = ctypes.CDLL(path)
    handle = ctypes.POINTER(_Handle)
    name = [ctypes.c_char_p, ctypes.c_size_t]
    answer = ctypes.POINTER(_Answer)
    calls = {
        "open": [handle, ctypes.c_uint32, ctypes.POINTER(_Settings)],
        "rmw": [handle, *name, ctypes.c_int64, answer],
        "read": [handle, *name, answer],
        "upsert": [handle, *name, ctypes.POINTER(_Number), answer],
        "delete": [handle, *name, answer],
        "merge": [handle, *name, ctypes.c_int64, answer],
        "compact": [handle, ctypes.POINTER(ctypes.c_uint32)],
        "counts": [handle, ctypes.POINTER(_Sizes)],
        "list": [handle, handle],
        "next": [handle, ctypes.POINTER(_Pair)],
        "put": [handle, *name, ctypes.POINTER(_Cell)],
        "get": [handle, *name, ctypes.POINTER(_CellAnswer)],
        "remove": [handle, *name],
        "next_cell": [handle, ctypes.POINTER(_CellPair)],
        "close": [handle],
        "name": [ctypes.c_uint32, ctypes.c_char_p, ctypes.c_size_t],
    }
    made = {}
    for call, takes in calls.items():
        function = getattr(library, "fkv_c_" + call)
        function.argtypes = takes
        function.restype = None if call == "name" else ctypes.c_uint32
        made[call] = function
    return made


_CALLS = _load()


class Fault(Exception):
    """Why a call has done nothing: `name`, such as NoMemory or BadKey, and its number, `status`."""

    def __init__(self, status):
        text = ctypes.create_string_buffer(16)
        _CALLS["name"](status, text, len(text))
        self.status = status
        self.name = text.value.decode()
        super().__init__(self.name)


def _call(name, *arguments):
    status = _CALLS[name](*arguments)
    if status:
        raise Fault(status)


def _bytes_of(name):
    return name.encode("utf-8", "surrogateescape") if isinstance(name, str) else bytes(name)


def _input_of(number):
    if not -(1 << 63) <= number < 1 << 63:
        raise OverflowError("an input has 64 bits")
    return number


def _bits_within(number, most):
    return min(max(number.bit_length() - 1, 0), most)


def settings_of(memory, partition_bits=0):
    """The settings of a store whose buckets and page frames take at most so much memory, as `fkv_cli --memory` has them."""
    if isinstance(memory, str):
        found = re.fullmatch(r"([0-9]{1,18})([KMGT])(?:i?B)?", memory, re.IGNORECASE)
        if not found:
            raise ValueError("memory is a number of bytes, or a number with K, M, G or T behind it, such as 64M")
        memory = int(found[1]) << 10 * (1 + "KMGT".index(found[2].upper()))
    share = memory >> partition_bits
    bucket_bits = _bits_within(share // 256, 20)
    page_bits = 8 + _bits_within(share >> 17, 12)
    frames = max(share - (64 << bucket_bits), 0) >> page_bits
    return {
        "id": 1,
        "partition_bits": partition_bits,
        "bucket_bits": bucket_bits,
        "page_bits": page_bits,
        "frames": max(min(frames, 1024), 2),
        "turns": 1_000_000,
    }


class _AnyStore:
    """What stores of numbers and of cells have in common."""

    def __init__(self, kind, memory, settings):
        self._store = _Handle()
        settings = {**settings_of(memory, settings.get("partition_bits", 0)), **settings}
        _call("open", self._store, kind, ctypes.byref(_Settings(**settings)))

    def close(self):
        """Frees what the store has. A closed one may be closed again; every other call of it raises `Fault` (Closed)."""
        status = _CALLS["close"](self._store)
        if status not in (0, _CLOSED):
            raise Fault(status)

    def __enter__(self):
        return self

    def __exit__(self, *raised):
        self.close()

    def __del__(self):
        if hasattr(self, "_store"):
            self.close()

    def __getitem__(self, name):
        value = self.get(name)
        if value is None:
            raise KeyError(name)
        return value

    def __contains__(self, name):
        return self.get(name) is not None

    def pairs(self):
        """The names, as bytes, and their values that the store has at the first step, names rising."""
        cursor, pair = _Handle(), self._pair()
        _call("list", self._store, cursor)
        try:
            _call(self._next, cursor, pair)
            while pair.is_some:
                start = ctypes.addressof(pair) + type(pair).name.offset
                yield ctypes.string_at(start, pair.length), pair.value.value()
                _call(self._next, cursor, pair)
        finally:
            _call("close", cursor)

    def items(self):
        """The same, names as str."""
        for name, value in self.pairs():
            yield name.decode("utf-8", "surrogateescape"), value

    def __iter__(self):
        for name, _ in self.items():
            yield name

    def compact(self):
        """Gives back what superseded records take in pages that left the frames before. Returns whether any was given back. It is
        done by itself too, as far as it pays."""
        has_cut = ctypes.c_uint32()
        _call("compact", self._store, ctypes.byref(has_cut))
        return bool(has_cut.value)

    def counts(self):
        """How many bytes the logs have, how many of them stand below Head, and how many moments were taken."""
        sizes = _Sizes()
        _call("counts", self._store, ctypes.byref(sizes))
        return {"bytes": sizes.bytes, "evicted": sizes.evicted, "moments": sizes.moments}


class Store(_AnyStore):
    """A store of numbers of this kind, in memory. `memory` is what its buckets and page frames take at most; pages that leave the frames
    stay in memory too. Any setting of `settings_of` may be given by its name instead."""

    _pair, _next = _Pair, "next"

    def __init__(self, kind, memory="64M", **settings):
        if kind == _CELLS:
            raise Fault(_BAD_KIND)
        self._answer = _Answer()
        super().__init__(kind, memory, settings)

    def rmw(self, name, number):
        """Changes the value of a name by a number of 64 bits, or gives it its first. Returns the new one, or None where the store declined
        it and the value is as it was."""
        key = _bytes_of(name)
        _call("rmw", self._store, key, len(key), _input_of(number), self._answer)
        return None if self._answer.kind == _DECLINED else self._answer.value.value()

    def merge(self, name, number):
        """Changes the value as `rmw` does, returns nothing, and reads no page."""
        key = _bytes_of(name)
        _call("merge", self._store, key, len(key), _input_of(number), self._answer)

    def get(self, name, default=None):
        """The value of a name, or the default where it has none."""
        key = _bytes_of(name)
        _call("read", self._store, key, len(key), self._answer)
        return default if self._answer.kind == _ABSENT else self._answer.value.value()

    def __setitem__(self, name, value):
        if not -(1 << 127) <= value < 1 << 127:
            raise OverflowError("a value has 128 bits")
        key = _bytes_of(name)
        number = _Number(value & (1 << 64) - 1, value >> 64)
        _call("upsert", self._store, key, len(key), ctypes.byref(number), self._answer)

    def __delitem__(self, name):
        """Removes a name. One that has no value is no error."""
        key = _bytes_of(name)
        _call("delete", self._store, key, len(key), self._answer)


class Cells(_AnyStore):
    """A store of 64 bytes for each name, in memory, with the same settings: `cells[name] = bytes`, `cells[name]`, `del cells[name]`."""

    _pair, _next = _CellPair, "next_cell"

    def __init__(self, memory="64M", **settings):
        self._answer = _CellAnswer()
        super().__init__(_CELLS, memory, settings)

    def get(self, name, default=None):
        """The cell of a name, or the default where it has none."""
        key = _bytes_of(name)
        _call("get", self._store, key, len(key), self._answer)
        return default if self._answer.kind == _ABSENT else self._answer.value.value()

    def __setitem__(self, name, cell):
        if len(cell) != 64:
            raise ValueError("a cell has 64 bytes")
        key = _bytes_of(name)
        _call("put", self._store, key, len(key), _Cell((ctypes.c_ubyte * 64)(*cell)))

    def __delitem__(self, name):
        """Removes a name. One that has no cell is no error."""
        key = _bytes_of(name)
        _call("remove", self._store, key, len(key))
