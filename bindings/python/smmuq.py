# SPDX-License-Identifier: MIT OR Apache-2.0
"""libsmmuq from Python: commands' words and texts, and a unit that judges commands and holds entries.

    import smmuq

    library = smmuq.Library("libsmmuq.so")
    unit = library.unit(capacity=256)
    page = smmuq.Tag(kind=smmuq.Kind.S1, vmid=1, scope=smmuq.Scope.ASID, asid=2, address=0x3000)
    unit.fill(page, 0x1000)
    unit.judge(0x0002000100000012, 0x3001).removed  # 1

What is refused raises `Refused`, which has the status of include/smmuq.h. A unit is for one thread at a time, as its handle
in C is; what a call owes its caller is said there. This file has no part in the proofs.
"""
import ctypes
import enum
import types

_TEXT_ROOM = 256


class Kind(enum.IntEnum):
    """What an entry is of: `smmuq_tag_kind`."""

    STE = 1
    CD = 2
    S1 = 3
    S2 = 4
    EL2 = 5
    ATC = 6


class Scope(enum.IntEnum):
    """Whose an S1 or EL2 entry is: `smmuq_scope`."""

    UNSAID = 0
    ASID = 1
    GLOBAL = 2


class Status(enum.IntEnum):
    """The statuses that a unit and the codec answer: `smmuq_status`."""

    OK = 0
    ILL_OPCODE = 0x01
    ILL_SECURE_STREAM = 0x02
    ILL_SIGNAL = 0x03
    ILL_SPAN = 0x04
    CACHES_FULL = 0x11
    BAD_BLOCK = 0x12
    CACHES_NO_MEMORY = 0x13
    BAD_CAPACITY = 0x14
    NO_ERROR = 0x51
    OTHER_BIT = 0x52
    EMPTY_HANDLE = 0x60
    WRONG_HANDLE = 0x61
    BAD_FIELD = 0x62
    SHORT_BUFFER = 0x63
    NO_MEMORY = 0x64
    NOT_HELD = 0x65
    STILL_STOPPED = 0x70
    OTHER_COMMAND = 0x71
    EXHAUSTED = 0x72
    REPLACED = 0x76


class Remedy(enum.IntEnum):
    """What becomes of the command at which a unit stopped: `smmuq_remedy`."""

    RETRY = 0
    REPLACE = 1
    REREAD = 2


class Refused(Exception):
    """A call was refused. `status` is a Status, or a number that this file has no name for."""

    def __init__(self, status, words):
        super().__init__(words)
        self.status = Status(status) if status in Status._value2member_map_ else status


class Tag(ctypes.Structure):
    """What names an entry: `smmuq_tag`."""

    _fields_ = [(name, ctypes.c_uint32) for name in ("kind", "sid", "has_ssid", "ssid", "vmid", "scope", "asid", "span")]
    _fields_ += [("address", ctypes.c_uint64)]


class Held(ctypes.Structure):
    """An entry's value, and how many commands were taken before it was filled: `smmuq_held`."""

    _fields_ = [("value", ctypes.c_uint64), ("born", ctypes.c_uint64)]


class Entry(ctypes.Structure):
    """An entry with its tag: `smmuq_entry`."""

    _fields_ = [("tag", Tag), ("held", Held)]


class Verdict(ctypes.Structure):
    """What a command did: `smmuq_verdict`."""

    _fields_ = [("removed", ctypes.c_uint32), ("ill", ctypes.c_uint32), ("waiting", ctypes.c_uint32)]


class _Handle(ctypes.Structure):
    _fields_ = [("at", ctypes.c_void_p)]


_U32, _U64, _SIZE, _POINTER = ctypes.c_uint32, ctypes.c_uint64, ctypes.c_size_t, ctypes.c_void_p
_ARGUMENTS = {
    "smmuq_check": (_U64, _U64),
    "smmuq_text": (_U64, _U64, _POINTER, _SIZE, _POINTER),
    "smmuq_status_text": (_U32, _POINTER, _SIZE, _POINTER),
    "smmuq_unit_new": (_U32, _POINTER),
    "smmuq_unit_judge": (_POINTER, _U64, _U64, _POINTER),
    "smmuq_unit_reset": (_POINTER,),
    "smmuq_acknowledge": (_POINTER, _U32, _U32),
    "smmuq_fill": (_POINTER, _POINTER, _U64),
    "smmuq_lookup": (_POINTER, _POINTER, _POINTER),
    "smmuq_evict": (_POINTER, _POINTER, _POINTER),
    "smmuq_evict_stream": (_POINTER, _U32, _POINTER),
    "smmuq_evict_machine": (_POINTER, _U32, _POINTER),
    "smmuq_count": (_POINTER, _POINTER),
    "smmuq_entries": (_POINTER, _POINTER, _SIZE, _POINTER),
    "smmuq_free": (_POINTER,),
}


def words(line):
    """The two words of a command, of 32 hexadecimal digits as it lies in the queue."""
    return tuple(int.from_bytes(bytes.fromhex(line[at : at + 16]), "little") for at in (0, 16))


class Library:
    """The shared library at a path."""

    def __init__(self, path):
        loaded = ctypes.CDLL(path)
        self._calls = types.SimpleNamespace()
        for name, arguments in _ARGUMENTS.items():
            call = getattr(loaded, name)
            call.argtypes, call.restype = arguments, _U32
            setattr(self._calls, name, call)

    def _text(self, name, *arguments):
        buffer, written = ctypes.create_string_buffer(_TEXT_ROOM), _SIZE()
        status = getattr(self._calls, name)(*arguments, buffer, _TEXT_ROOM, ctypes.byref(written))
        return status, buffer.value.decode()

    def _refused(self, status):
        return Refused(status, self._text("smmuq_status_text", status)[1])

    def call(self, name, *arguments):
        """Calls a function of the library by its name, and raises Refused unless it answers OK."""
        status = getattr(self._calls, name)(*arguments)
        if status != Status.OK:
            raise self._refused(status)

    def text(self, lo, hi):
        """What a legal command says."""
        status, text = self._text("smmuq_text", lo, hi)
        if status != Status.OK:
            raise self._refused(status)
        return text

    def check(self, lo, hi):
        """Raises Refused unless these are the words of a legal command."""
        self.call("smmuq_check", lo, hi)

    def unit(self, capacity):
        """A unit with empty caches for so many entries, 1 to 65,536."""
        return Unit(self, capacity)


class Unit:
    """A unit. It is freed when nothing names it any more, or by `close`, or at the end of a `with`."""

    def __init__(self, library, capacity):
        self._library, self._handle = library, _Handle()
        self._at = ctypes.byref(self._handle)
        library.call("smmuq_unit_new", capacity, self._at)

    def __enter__(self):
        return self

    def __exit__(self, *_):
        self.close()

    def __del__(self):
        self.close()

    def close(self):
        """Frees it. Each call then raises Refused with EMPTY_HANDLE."""
        self._library._calls.smmuq_free(self._at)

    def _told(self, told, name, *arguments):
        self._library.call(name, self._at, *arguments, ctypes.byref(told))
        return told

    def judge(self, lo, hi):
        """Takes a command. Raises Refused at an illegal one, where the unit stops, and with REPLACED for one without effect."""
        return self._told(Verdict(), "smmuq_unit_judge", lo, hi)

    def acknowledge(self, gerrorn, remedy):
        """Writes SMMU_GERRORN, as software, with a Remedy."""
        self._library.call("smmuq_acknowledge", self._at, gerrorn, remedy)

    def reset(self):
        """As a new one: empty, running, with no command taken."""
        self._library.call("smmuq_unit_reset", self._at)

    def fill(self, tag, value):
        """Puts in an entry, which is born now."""
        self._library.call("smmuq_fill", self._at, ctypes.byref(tag), value)

    def lookup(self, tag):
        """What is held under a tag, or None."""
        return self._held("smmuq_lookup", tag)

    def evict(self, tag):
        """The same, and removes it."""
        return self._held("smmuq_evict", tag)

    def _held(self, name, tag):
        try:
            return self._told(Held(), name, ctypes.byref(tag))
        except Refused as refused:
            if refused.status == Status.NOT_HELD:
                return None
            raise

    def evict_stream(self, sid):
        """Removes all entries of a stream, and returns how many they were."""
        return self._told(_SIZE(), "smmuq_evict_stream", sid).value

    def evict_machine(self, vmid):
        """Removes the translations of a VMID, and returns how many they were."""
        return self._told(_SIZE(), "smmuq_evict_machine", vmid).value

    def __len__(self):
        return self._told(_SIZE(), "smmuq_count").value

    def entries(self):
        """All entries, in the order of their tags."""
        room = len(self)
        buffer = (Entry * max(room, 1))()
        count = self._told(_SIZE(), "smmuq_entries", buffer, room).value
        return list(buffer[:count])
