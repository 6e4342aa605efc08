"""Networks of their own on this host: network namespaces of Linux, joined by pairs of veth. They want root and iproute2. What is made is
gone in the end, and what an earlier process left that was killed."""
import contextlib
import ctypes
import os
import shutil
import signal
import subprocess

# setns(2)
CLONE_NEWNET = 0x40000000
PREFIX = "faxgate-play-"
_LIBC = ctypes.CDLL(None, use_errno=True)


def ip(*words):
    """A command of ip(8): what it prints."""
    return subprocess.run(["ip", *words], check=True, capture_output=True, text=True, timeout=30).stdout


def lacking():
    """What lacks for them; nothing where all is there."""
    if not shutil.which("ip"):
        return "ip is missing: apt-get install iproute2"
    if os.geteuid() != 0:
        return "root makes networks, and this is another user"
    try:
        with Networks() as networks:
            networks.add("probe")
    except (subprocess.CalledProcessError, OSError) as fault:
        return f"no network can be made here: {getattr(fault, 'stderr', None) or fault}".rstrip()
    return ""


def _enter(path):
    """This thread, and those that it begins, are in this network from now on."""
    descriptor = os.open(path, os.O_RDONLY)
    try:
        if _LIBC.setns(descriptor, CLONE_NEWNET):
            raise OSError(ctypes.get_errno(), f"setns: {path}")
    finally:
        os.close(descriptor)


class Networks:
    """Networks with names; as a context manager they are gone after."""

    def __init__(self):
        self._made = []

    def __enter__(self):
        self._sweep()
        return self

    def __exit__(self, *_):
        for name in self._made:
            with contextlib.suppress(subprocess.CalledProcessError):
                ip("netns", "del", name)

    @staticmethod
    def _sweep():
        """Takes away those of plays that are gone, with what is left in them."""
        for name in (line.split()[0] for line in ip("netns", "list").splitlines() if line.startswith(PREFIX)):
            if os.path.exists(f"/proc/{name.removeprefix(PREFIX).split('-')[0]}"):
                continue
            for process in ip("netns", "pids", name).split():
                with contextlib.suppress(ProcessLookupError):
                    os.kill(int(process), signal.SIGKILL)
            ip("netns", "del", name)

    @staticmethod
    def _full(name):
        return f"{PREFIX}{os.getpid()}-{name}"

    def add(self, name, *addresses):
        """Makes a network, with these addresses of its own."""
        full = self._full(name)
        ip("netns", "add", full)
        self._made.append(full)
        ip("-n", full, "link", "set", "lo", "up")
        for address in addresses:
            ip("-n", full, "addr", "add", f"{address}/32", "dev", "lo")

    def join(self, front, front_address, host, host_address):
        """Joins two networks; all that the host sends goes to the front."""
        near, far = self._full(front), self._full(host)
        ip("-n", near, "link", "add", f"to-{host}", "type", "veth", "peer", "name", "eth0", "netns", far)
        ip("-n", near, "addr", "add", front_address, "peer", host_address, "dev", f"to-{host}")
        ip("-n", near, "link", "set", f"to-{host}", "up")
        ip("-n", far, "addr", "add", host_address, "peer", front_address, "dev", "eth0")
        ip("-n", far, "link", "set", "eth0", "up")
        ip("-n", far, "route", "add", "default", "via", front_address, "dev", "eth0")

    def cut(self, host):
        """Nothing goes to a host or comes from it any more."""
        ip("-n", self._full(host), "link", "set", "eth0", "down")

    @contextlib.contextmanager
    def inside(self, name):
        """Sockets that are opened within, and processes that are begun, are of this network."""
        here = os.open("/proc/thread-self/ns/net", os.O_RDONLY)
        try:
            _enter(f"/run/netns/{self._full(name)}")
            try:
                yield
            finally:
                _enter(f"/proc/self/fd/{here}")
        finally:
            os.close(here)
