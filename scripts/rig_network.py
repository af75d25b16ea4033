"""Network namespaces of a rig's own, and the switch between them. A namespace has no name and no file: it ends with the processes
in it, and so do mounts that the rig makes in its namespace of mounts. Nothing of the machine's own network is touched."""

import concurrent.futures
import contextlib
import ctypes
import fcntl
import json
import os
import socket
import struct
import subprocess
import sys
import threading

import command

# Flags of clone and unshare, of a device, and requests, as in the headers of Linux.
NEW_NETWORK, NEW_MOUNTS = 0x4000_0000, 0x0002_0000
RECURSIVE_PRIVATE, REMOUNT = 0x4000 | 0x4_0000, 0x20
SET_TUN, TUN_WITHOUT_HEAD = 0x4004_54CA, 0x0001 | 0x1000
SET_FLAGS, SET_ADDRESS, SET_MASK, IS_UP = 0x8914, 0x8916, 0x891C, 0x1 | 0x40
DEVICE = b"tun0"

libc = ctypes.CDLL(None, use_errno=True)


class NotAllowed(Exception):
    """The error of a machine that lets the rig make no namespace, no device or no mount."""


def called(name, *values):
    """Calls the C library."""
    if getattr(libc, name)(*values) != 0:
        code = ctypes.get_errno()
        raise NotAllowed(f"{name}: {os.strerror(code)}")


def leave_mounts():
    """Has mounts of this process, and of those that it starts, be its own. It goes before the first thread."""
    called("unshare", NEW_MOUNTS)
    called("mount", b"none", b"/", None, RECURSIVE_PRIVATE, None)
    # (faketime leaves files there of processes that are killed)
    mount_memory("/dev/shm", "16m")


def mount_memory(folder, size, flags=0):
    """Puts a file system of its own, in memory, at a folder. It takes no memory before something is written."""
    called("mount", b"rig", folder.encode(), b"tmpfs", flags, f"size={size}".encode())


def fill(folder):
    """Leaves no room on such a file system: what is written is all that it may hold."""
    for _ in range(1000):
        held = os.statvfs(folder)
        # (it is refused if something was written meanwhile)
        with contextlib.suppress(NotAllowed):
            mount_memory(folder, (held.f_blocks - held.f_bfree) * held.f_frsize, REMOUNT)
            return
    raise OSError(f"{folder} can't be made smaller")


def make_room(folder, size):
    """Gives a full one room again."""
    mount_memory(folder, size, REMOUNT)


def unmount(folder):
    """Takes away what was mounted, also while files of it are open (MNT_DETACH)."""
    libc.umount2(folder.encode(), 2)


def address_of(place):
    """Returns the address of a place, whose last byte the switch reads."""
    return f"10.77.0.{place + 1}"


def set_up(device, address):
    """Gives a device of this thread's namespace an address, if it needs one, and lets it carry packets."""
    name = device.ljust(16, b"\0")
    with socket.socket(socket.AF_INET, socket.SOCK_DGRAM) as any_socket:
        for request, text in ((SET_ADDRESS, address), (SET_MASK, address and "255.255.255.0")):
            if text:
                value = struct.pack("<HH4s8x", socket.AF_INET, 0, socket.inet_aton(text))
                fcntl.ioctl(any_socket, request, name + value)
        fcntl.ioctl(any_socket, SET_FLAGS, name + struct.pack("<H14x", IS_UP))


class Host:
    """A network namespace, with an address on a TUN device, and a thread in it, which starts processes there."""

    def __init__(self, place):
        self.place, self.address = place, address_of(place)
        self.thread = concurrent.futures.ThreadPoolExecutor(1)
        try:
            self.namespace, self.device = self.do(self.make)
        except OSError as why:
            raise NotAllowed(f"a TUN device: {why}") from None

    def make(self):
        """Moves this thread to a namespace of its own, and returns that and the device."""
        called("unshare", NEW_NETWORK)
        set_up(b"lo", None)
        device = os.open("/dev/net/tun", os.O_RDWR)
        fcntl.ioctl(device, SET_TUN, DEVICE.ljust(16, b"\0") + struct.pack("<H14x", TUN_WITHOUT_HEAD))
        set_up(DEVICE, self.address)
        return os.open("/proc/thread-self/ns/net", os.O_RDONLY), device

    def do(self, work):
        """Has the thread of the namespace do something, and returns what comes of it."""
        return self.thread.submit(work).result()

    def enter(self):
        """Moves the calling thread to the namespace."""
        called("setns", self.namespace, NEW_NETWORK)

    def close(self):
        self.thread.shutdown()
        for descriptor in (self.namespace, self.device):
            os.close(descriptor)


class Network:
    """The namespaces, and the switch. Faults are added and taken back one by one; all that are there hold together."""

    def __init__(self, count, seed):
        self.hosts, self.switch, self.faults, self.told = [], None, {}, {}
        self.lock = threading.Lock()
        try:
            for place in range(count):
                self.hosts.append(Host(place))
            devices = [host.device for host in self.hosts]
            words = [sys.executable, f"{command.TOP}/scripts/rig_switch.py", *map(str, [seed, *devices])]
            self.switch = subprocess.Popen(words, stdin=subprocess.PIPE, stdout=subprocess.PIPE, pass_fds=devices)
        except BaseException:
            self.close()
            raise

    def pairs(self, places, is_one_way=False):
        """Returns the pairs of one of these places and one of the others, both ways, or only from these."""
        others = [host.place for host in self.hosts if host.place not in places]
        ways = [(one, other) for one in places for other in others]
        return ways if is_one_way else ways + [(other, one) for one, other in ways]

    def begin(self, name, kind, pairs, *values):
        """Adds a fault: `cut`, `drop` with a share, or `delay` with the least and the greatest seconds."""
        with self.lock:
            self.faults[name] = kind, [(*pair, *values) for pair in pairs]
            self.tell()

    def end(self, name):
        """Takes a fault back."""
        with self.lock:
            self.faults.pop(name, None)
            self.tell()

    def tell(self):
        """Tells the switch what holds."""
        said = {"cut": [], "drop": [], "delay": []}
        for kind, rows in [*self.faults.values()]:
            said[kind] += rows
        self.switch.stdin.write(json.dumps(said).encode() + b"\n")
        self.switch.stdin.flush()

    def close(self):
        """Ends the switch, which tells what it carried, and lets the namespaces go."""
        if self.switch and self.switch.poll() is None:
            said, _ = self.switch.communicate(timeout=20)
            self.told = json.loads(said or b"{}")
        for host in self.hosts:
            host.close()
        self.hosts = []
