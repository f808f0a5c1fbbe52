"""The program from Python, in the process itself: docs/library.md.

    import fedcm
    status, transcript = fedcm.run(open("examples/sign-up.jsonl", "rb").read())
"""
import ctypes
import os

DONE, NO_FORM, BAD_SCRIPT, NO_MEMORY, TOO_LONG, NOT_TWINS, FAULTY, NOT_SAVED, DIFFERS = 0, 1, 2, 5, 6, 7, 8, 9, 10
CLOSED, GOES_ON = 254, 255
ROOM = 65536

_library = ctypes.CDLL(os.environ.get("FEDCM_LIBRARY") or os.path.join(os.path.dirname(os.path.abspath(__file__)), "out", "libfedcm.so"))
_library.fedcm_profile.restype = ctypes.c_uint32
_library.fedcm_profile.argtypes = []


_BYTES = [ctypes.c_char_p, ctypes.c_size_t]


def _form(name, texts=1):
    """A form of the library: bytes, one or two, to a status and a text. Where the room does not do, it is called once more."""
    call = getattr(_library, name)
    call.restype = ctypes.c_uint8
    call.argtypes = _BYTES * (texts + 1) + [ctypes.POINTER(ctypes.c_size_t)]

    def form(*given):
        size = ctypes.c_size_t()
        words = [word for text in given for word in (text, len(text))]
        room = 2 * len(given[-1]) + ROOM
        while True:
            out = ctypes.create_string_buffer(room)
            status = call(*words, out, room, size)
            if status == NO_MEMORY:
                raise MemoryError(name)
            if size.value <= room:
                return status, out.raw[: size.value]
            room = size.value

    return form


def joined(first, kind, second):
    """Two texts as one input, with the line that divides them by what the second is: "script" or "transcript"."""
    end = b"" if first.endswith(b"\n") or not first else b"\n"
    return first + end + b'{"next":"' + kind.encode() + b'"}\n' + second


_run, _check, _twin, _audit, _compare, _save = map(_form, [f"fedcm_{name}" for name in "run check twin audit compare save".split()])
_slice = _form("fedcm_slice", 2)


def profile():
    """The version of the profile: the number of the member `fedcm` in a script's header."""
    return _library.fedcm_profile()


def run(script):
    """The status and the transcript of a script."""
    return _run(script)


def check(script):
    """The status, and a record for each bad line of a script and for each member that is read over."""
    return _check(script)


def twin(first, second):
    """The status, and the record that says whether two scripts are twins."""
    return _twin(joined(first, "script", second))


def audit(script, transcript):
    """The status, and the record that says whether a transcript that another program wrote keeps the rules."""
    return _audit(joined(script, "transcript", transcript))


def compare(script, transcript):
    """The status, and the record that says where such a transcript first leaves the program's own."""
    return _compare(joined(script, "transcript", transcript))


def save(script):
    """The status, and a script that brings back the state that this one leaves behind."""
    return _save(script)


def slice_of(script, party):
    """The status, and the lines of a script that concern a party, as "shop.example", and all that it is linked with."""
    return _slice(party.encode(), script)


class _Held(ctypes.Structure):
    _fields_ = [("is_open", ctypes.c_bool), ("held", ctypes.c_void_p)]


_HELD = ctypes.POINTER(_Held)
_library.fedcm_open.restype = ctypes.c_bool
_library.fedcm_open.argtypes = [_HELD]
_library.fedcm_feed.restype = ctypes.c_uint8
_library.fedcm_feed.argtypes = [_HELD, ctypes.c_char_p, ctypes.c_size_t]
_library.fedcm_finish.restype = ctypes.c_uint8
_library.fedcm_finish.argtypes = [_HELD]
_library.fedcm_text.restype = ctypes.c_size_t
_library.fedcm_text.argtypes = [_HELD, ctypes.c_size_t, ctypes.c_char_p, ctypes.c_size_t]
_library.fedcm_close.restype = None
_library.fedcm_close.argtypes = [_HELD]


class Run:
    """A script that comes in pieces, which may end anywhere, and its transcript as far as it is written. For a `with`, or with `close`."""

    def __init__(self):
        self._held = _Held()
        self._taken = 0
        if not _library.fedcm_open(self._held):
            raise MemoryError("fedcm_open")

    def feed(self, piece):
        """GOES_ON, or the status by which the run ended."""
        return _library.fedcm_feed(self._held, piece, len(piece))

    def finish(self):
        """The pieces are all: the status."""
        return _library.fedcm_finish(self._held)

    def text(self):
        """What was written since this was last asked."""
        size = _library.fedcm_text(self._held, self._taken, b"\0", 0)
        room = size - self._taken
        out = ctypes.create_string_buffer(room + 1)
        _library.fedcm_text(self._held, self._taken, out, room)
        self._taken = size
        return out.raw[:room]

    def close(self):
        _library.fedcm_close(self._held)

    def __enter__(self):
        return self

    def __exit__(self, *_):
        self.close()
