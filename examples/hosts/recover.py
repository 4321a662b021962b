#!/usr/bin/env python3
"""One recovery by the C library in Python: a CCB is submitted, starts and times out, and its queue's policy decides what becomes of it. The
trace goes to standard output. The library is a shared one, which is made of shared.c.

    recover.py LIBRARY MANIFEST
"""

import ctypes
import os
import sys

CAMR_FAULTY = 17
CAMR_CMD_TIMEOUT = 0x0B

HANDLE = ctypes.c_void_p
NUMBER = ctypes.c_uint32
LENGTH = ctypes.c_size_t
# The parameters of each call, as shared.c has them. Those that return nothing stand below.
CALLS = {
    "host_open": [ctypes.c_char_p, LENGTH, ctypes.POINTER(HANDLE), ctypes.c_char_p, LENGTH],
    "host_submit": [HANDLE, NUMBER, NUMBER, NUMBER, NUMBER, ctypes.POINTER(NUMBER)],
    "host_dispatch": [HANDLE, NUMBER, ctypes.POINTER(NUMBER), ctypes.POINTER(NUMBER)],
    "host_complete": [HANDLE, NUMBER, ctypes.c_uint8, ctypes.c_uint8, ctypes.c_char_p, LENGTH, ctypes.POINTER(HANDLE)],
    "host_drive": [HANDLE, HANDLE, ctypes.POINTER(ctypes.c_uint64), ctypes.POINTER(ctypes.c_bool), ctypes.POINTER(NUMBER), ctypes.POINTER(ctypes.c_uint8)],
    "host_take": [HANDLE, ctypes.c_char_p, LENGTH, ctypes.POINTER(LENGTH)],
    "host_trace_end": [HANDLE, ctypes.c_char_p, LENGTH, ctypes.POINTER(LENGTH)],
    "host_result_text": [NUMBER, ctypes.c_char_p, LENGTH, ctypes.POINTER(LENGTH)],
    "host_close": [HANDLE],
    "host_run_free": [HANDLE],
}
SILENT = {"host_close", "host_run_free"}


def load(path):
    library = ctypes.CDLL(os.path.abspath(path))
    for name, parameters in CALLS.items():
        call = getattr(library, name)
        call.argtypes = parameters
        call.restype = None if name in SILENT else NUMBER
    return library


class Engine:
    """An engine of a manifest's text, which is closed at the end of the block."""

    def __init__(self, library, manifest):
        self.library, self.handle = library, HANDLE()
        fault = ctypes.create_string_buffer(256)
        result = library.host_open(manifest, len(manifest), ctypes.byref(self.handle), fault, len(fault))
        if result == CAMR_FAULTY:
            raise ValueError(fault.value.decode())
        self.expect(result)

    def __enter__(self):
        return self

    def __exit__(self, *fault):
        self.library.host_close(self.handle)

    def expect(self, result):
        """Raises the text of a result that is not CAMR_DONE."""
        if result:
            raise RuntimeError(self.text(self.library.host_result_text, result))

    def text(self, call, first):
        """What a call writes into a buffer, of which it reports the length."""
        buffer, written = ctypes.create_string_buffer(4096), LENGTH()
        self.expect(call(first, buffer, len(buffer), ctypes.byref(written)))
        return buffer.raw[: written.value].decode()

    def submit(self, queue, priority, retries, class_=0):
        ccb = NUMBER()
        self.expect(self.library.host_submit(self.handle, queue, priority, retries, class_, ctypes.byref(ccb)))
        return ccb.value

    def dispatch(self, queue):
        """Starts the next CCB. Returns its number, and what a policy advised before this try."""
        ccb, advice = NUMBER(), NUMBER()
        self.expect(self.library.host_dispatch(self.handle, queue, ctypes.byref(ccb), ctypes.byref(advice)))
        return ccb.value, advice.value

    def complete(self, ccb, status, scsi=0, sense=b""):
        """Reports what became of a CCB, and drives the run of its policy, if one starts, to its end. Returns what that has done with the
        CCB, and the final code if it has finished it."""
        run, r0, ended, fate, code = HANDLE(), ctypes.c_uint64(), ctypes.c_bool(), NUMBER(), ctypes.c_uint8()
        self.expect(self.library.host_complete(self.handle, ccb, status, scsi, sense, len(sense), ctypes.byref(run)))
        if not run:
            return None
        try:
            told = (ctypes.byref(out) for out in (r0, ended, fate, code))
            self.expect(self.library.host_drive(self.handle, run, *told))
        finally:
            self.library.host_run_free(run)
        return fate.value, code.value

    def trace(self):
        """The lines that were not taken yet, and the sums."""
        lines = iter(lambda: self.text(self.library.host_take, self.handle), "")
        return "".join(lines) + self.text(self.library.host_trace_end, self.handle)


def main():
    if len(sys.argv) != 3:
        sys.exit("usage: recover.py LIBRARY MANIFEST")
    with open(sys.argv[2], "rb") as file:
        manifest = file.read()
    with Engine(load(sys.argv[1]), manifest) as engine:
        engine.submit(queue=0, priority=10, retries=3)
        ccb, _ = engine.dispatch(queue=0)
        # here a transport gives the CCB to its device, which in this example does not answer in time
        engine.complete(ccb, CAMR_CMD_TIMEOUT)
        sys.stdout.write(engine.trace())


main()
