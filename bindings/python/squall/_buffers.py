"""Bytes and numbers of other objects."""

from __future__ import annotations

import ctypes
from typing import TYPE_CHECKING, Any, Dict, Optional, Protocol, Union, cast

if TYPE_CHECKING:
    from _typeshed import ReadableBuffer, WriteableBuffer

    class NumpyArray(Protocol):
        """An array of NumPy, which older checkers of types don't know to be a buffer."""

        @property
        def __array_interface__(self) -> Dict[str, Any]:
            ...

    ReadableArray = Union[ReadableBuffer, NumpyArray]
    WritableArray = Union[WriteableBuffer, NumpyArray]


class _PyBuffer(ctypes.Structure):
    """`Py_buffer` of CPython."""

    _fields_ = [
        ("buf", ctypes.c_void_p),
        ("obj", ctypes.c_void_p),
        ("len", ctypes.c_ssize_t),
        ("itemsize", ctypes.c_ssize_t),
        ("readonly", ctypes.c_int),
        ("ndim", ctypes.c_int),
        ("format", ctypes.c_char_p),
        ("shape", ctypes.c_void_p),
        ("strides", ctypes.c_void_p),
        ("suboffsets", ctypes.c_void_p),
        ("internal", ctypes.c_void_p),
    ]
    buf: Optional[int]
    len: int


_get = ctypes.pythonapi["PyObject_GetBuffer"]
_get.argtypes = [ctypes.py_object, ctypes.POINTER(_PyBuffer), ctypes.c_int]
_get.restype = ctypes.c_int
_release = ctypes.pythonapi["PyBuffer_Release"]
_release.argtypes = [ctypes.POINTER(_PyBuffer)]
_release.restype = None

#: Bytes one after the other, to be read.
_SIMPLE = 0
#: An address for no bytes, since the library takes no null pointer.
_EMPTY = b"\0"


class Lent:
    """The bytes of an object in its own memory, from the beginning of a `with` to its end.

    Meanwhile the object does not move or free them. It may change them while another thread of
    Python runs. Raises `TypeError` if the object has no bytes, and `BufferError` or `ValueError`
    if they do not follow each other in memory.
    """

    __slots__ = ("_buffer",)

    def __init__(self, source: ReadableBuffer) -> None:
        self._buffer = _PyBuffer()
        _get(source, self._buffer, _SIMPLE)

    @property
    def at(self) -> Union[int, bytes]:
        """Where they are."""
        return self._buffer.buf or _EMPTY

    @property
    def size(self) -> int:
        """How many there are."""
        return self._buffer.len

    def __enter__(self) -> Lent:
        return self

    def __exit__(self, *_raised: object) -> None:
        _release(self._buffer)


def numbers(source: ReadableArray, name: str, letters: str, size: int) -> memoryview:
    """The memory of an array of one dimension with unsigned numbers of this many bytes each.

    `letters` are the formats that such numbers may have. Raises `TypeError` if it is none, and
    `BufferError` if the numbers do not follow each other in memory.
    """
    wanted = (
        f"{name} has to be an array of unsigned {8 * size}-bit numbers, as array('{letters[0]}')"
    )
    try:
        view = memoryview(cast("ReadableBuffer", source))
    except TypeError as error:
        raise TypeError(f"{wanted}: {error}") from None
    # Arrays of ctypes say which order their bytes have: that of the processor.
    if str(view.format).lstrip("@=<") not in letters or view.itemsize != size:
        raise TypeError(f"{wanted}: its format is {view.format!r} of {view.itemsize} bytes")
    if view.ndim != 1:
        raise TypeError(f"{wanted}: it has {view.ndim} dimensions and not one")
    if not view.c_contiguous:
        raise BufferError(f"{name} is not contiguous: take a copy of it")
    return view
