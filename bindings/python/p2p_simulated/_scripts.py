"""Scripts."""

from __future__ import annotations

from ctypes import byref, c_size_t, c_uint8, c_uint64
from typing import Union

from ._library import BadLine, _check, _lib


def run(script: Union[str, bytes]) -> str:
    """What a script of docs/SCRIPT.md prints.  Raises BadLine at a line that is not of the language."""
    text = script.encode() if isinstance(script, str) else bytes(script)
    room = max(4096, 2 * len(text))
    printed, bad_line = c_size_t(), c_uint64()
    while True:
        out = (c_uint8 * room)()
        status = _lib.p2p_run(text, len(text), out, room, byref(printed), byref(bad_line))
        if printed.value <= room:
            break
        room = printed.value
    answer = bytes(memoryview(out)[: printed.value]).decode()
    if status == 2:
        raise BadLine(bad_line.value, answer)
    _check(status)
    return answer
