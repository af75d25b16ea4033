"""A node of the gossip in Python: the library of crates/cg_c by ctypes. CG_LIBRARY names the shared library."""

import ctypes
import os
import re

HERE = os.path.dirname(os.path.abspath(__file__))
HEADER = os.path.join(HERE, "..", "..", "crates", "cg_c", "cg.h")


class _Node(ctypes.Structure):
    _fields_ = [("at", ctypes.c_void_p)]


class _Bytes(ctypes.Structure):
    _fields_ = [("start", ctypes.POINTER(ctypes.c_char)), ("length", ctypes.c_size_t), ("at", ctypes.c_void_p)]


class _Judgement(ctypes.Structure):
    _fields_ = [(name, ctypes.c_uint32) for name in ("window", "initial_gap", "max_gap", "threshold")]


def _faults():
    """The names of the faults by their numbers, from the header."""
    with open(HEADER, encoding="utf-8") as file:
        return {int(number): name for name, number in re.findall(r"CG_(\w+) = (\d+),", file.read())}


class Refused(Exception):
    """The fault of a call, by its number."""

    NAMES = _faults()

    def __init__(self, number):
        super().__init__(f"{number} {self.NAMES.get(number, '')}")
        self.number = number


class Node:
    """A node. It is freed with the object, or by `close`."""

    _calls = ctypes.CDLL(os.environ.get("CG_LIBRARY", "libcg_c.so"))

    def __init__(self, endpoint, generation, cluster, seeds=(), numbers=None):
        """Starts a node. The numbers are a window's greatest size, the initial gap, the greatest gap and the threshold."""
        self._node, judgement = _Node(), _Judgement(*numbers or ())
        if not numbers:
            self._calls.cg_defaults(ctypes.byref(judgement))
        words = (*self._slice(endpoint.encode()), ctypes.c_uint32(generation), *self._slice(cluster.encode()))
        self._do("cg_start", *words, *self._slice(",".join(seeds).encode()), ctypes.byref(judgement))

    def close(self):
        self._calls.cg_free(ctypes.byref(self._node))

    __del__ = close

    @staticmethod
    def _slice(data):
        return ctypes.c_char_p(data), ctypes.c_size_t(len(data))

    def _do(self, name, *words):
        """Makes a call, and raises its fault."""
        fault = getattr(self._calls, name)(ctypes.byref(self._node), *words)
        if fault:
            raise Refused(fault)

    def _version(self, name, *words):
        """Makes a call that tells a version."""
        version = ctypes.c_uint32()
        self._do(name, *words, ctypes.byref(version))
        return version.value

    def _bytes(self, name, count, *words):
        """Makes a call that gives bytes this many times."""
        given = [_Bytes() for _ in range(count)]
        try:
            self._do(name, *words, *map(ctypes.byref, given))
            return [it.start[: it.length] if it.length else b"" for it in given]
        finally:
            for it in given:
                self._calls.cg_bytes_free(ctypes.byref(it))

    def beat(self):
        return self._version("cg_beat")

    def set(self, key, text):
        return self._version("cg_set", ctypes.c_uint8(key), *self._slice(text.encode()))

    def remove(self, key):
        return self._version("cg_remove", ctypes.c_uint8(key))

    def tick(self, now, words):
        """Begins a round. Returns the peers and the frame of the SYN for them."""
        peers, frame = self._bytes("cg_tick", 2, *map(ctypes.c_uint64, (now, *words)))
        return peers.decode().split()[1:], frame

    def opening(self):
        return self._bytes("cg_opening", 1)[0]

    @classmethod
    def frame_length(cls, data):
        """The length of the frame that bytes begin with, by the first five."""
        length = ctypes.c_size_t()
        fault = cls._calls.cg_frame_length(*cls._slice(data), ctypes.byref(length))
        if fault:
            raise Refused(fault)
        return length.value

    def handle(self, now, data):
        """Handles the frame that bytes begin with. Returns the frame's length, the outcomes, and the frame of the answer."""
        taken = ctypes.c_size_t()
        words = (ctypes.c_uint64(now), *self._slice(data), ctypes.byref(taken))
        outcomes, frame = self._bytes("cg_handle", 2, *words)
        return taken.value, outcomes.decode().splitlines(), frame

    def entry(self, endpoint):
        """Returns the generation and the newest version that is held of an endpoint."""
        generation, newest = ctypes.c_uint32(), ctypes.c_uint32()
        self._do("cg_entry", *self._slice(endpoint.encode()), ctypes.byref(generation), ctypes.byref(newest))
        return generation.value, newest.value

    def state(self, endpoint, key):
        """Returns the text of a key of an endpoint, and the version that set it."""
        text, version = _Bytes(), ctypes.c_uint32()
        words = (*self._slice(endpoint.encode()), ctypes.c_uint8(key))
        try:
            self._do("cg_state", *words, ctypes.byref(text), ctypes.byref(version))
            return (text.start[: text.length] if text.length else b"").decode(), version.value
        finally:
            self._calls.cg_bytes_free(ctypes.byref(text))

    def verdict(self, endpoint, now):
        """Returns 0 if an endpoint is alive, 1 if it is silent, and 2 if it was never heard."""
        verdict = ctypes.c_uint8()
        self._do("cg_verdict", *self._slice(endpoint.encode()), ctypes.c_uint64(now), ctypes.byref(verdict))
        return verdict.value

    def owners(self):
        return self._bytes("cg_owners", 1)[0].decode().split()

    def gossipinfo(self):
        return self._bytes("cg_gossipinfo", 1)[0].decode()

    def digests(self):
        return self._bytes("cg_digests", 1)[0].decode()

    def ring(self):
        return self._bytes("cg_ring", 1)[0].decode()

    def replicas(self, key, count):
        return self._bytes("cg_replicas", 1, *self._slice(key), ctypes.c_uint64(count))[0].decode().split()
