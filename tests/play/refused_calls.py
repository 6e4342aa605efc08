"""`faxgate loop` where the system refuses its calls: it tells why no page was delivered.

The program is started by this very file, which first asks Linux to answer some of its calls with an error (seccomp, filter mode).
"""
import ctypes
import errno
import os
import platform
import struct
import subprocess
import sys
import unittest

PAGE = "0014d9a8008008008008008008"  # one white row of 1,728 elements

# Of each machine: its number in the kernel's audit, and those of the calls.
AUDITS = {"x86_64": 0xC000003E, "aarch64": 0xC00000B7}
CALLS = {
    "x86_64": {"socket": 41, "sendto": 44, "recvfrom": 45},
    "aarch64": {"socket": 198, "sendto": 206, "recvfrom": 207},
}
ERRORS = {"socket": errno.EMFILE, "sendto": errno.ENETUNREACH, "recvfrom": errno.ENETUNREACH}

# The places of what a filter reads, and its instructions (linux/seccomp.h, linux/bpf_common.h).
NUMBER, AUDIT, FIRST_ARGUMENT, THIRD_ARGUMENT = 0, 4, 16, 32
LOAD, JUMP_EQUAL, JUMP_NOT_BELOW, RETURN = 0x20, 0x15, 0x35, 0x06
ALLOW, REFUSE = 0x7FFF0000, 0x00050000
SET_NO_NEW_PRIVILEGES, SET_SECCOMP, FILTER_MODE = 38, 22, 2

# The socket of the called machine: the third that a run makes, after the three streams.
ANSWERER = 5


def filter_of(call, descriptor=None, least=None):
    """A filter that answers an error to a call: of a socket alone, or of so many octets and more, where that is given."""
    machine = platform.machine()
    wanted = [(AUDIT, JUMP_EQUAL, AUDITS[machine]), (NUMBER, JUMP_EQUAL, CALLS[machine][call])]
    wanted += [(FIRST_ARGUMENT, JUMP_EQUAL, int(descriptor))] if descriptor else []
    wanted += [(THIRD_ARGUMENT, JUMP_NOT_BELOW, int(least))] if least else []
    steps = []
    for at, (place, jump, value) in enumerate(wanted):
        to_allow = 2 * (len(wanted) - at) - 1  # the steps between this jump and the last step
        steps += [(LOAD, 0, 0, place), (jump, 0, to_allow, value)]
    steps += [(RETURN, 0, 0, REFUSE | ERRORS[call]), (RETURN, 0, 0, ALLOW)]
    return b"".join(struct.pack("HBBI", *step) for step in steps), len(steps)


def install(program, steps):
    """Lets the kernel play a filter over each call of this process from now on."""
    libc = ctypes.CDLL(None, use_errno=True)
    room = ctypes.create_string_buffer(program)
    head = struct.pack("HxxxxxxP", steps, ctypes.addressof(room))
    one, none = ctypes.c_ulong(1), ctypes.c_ulong(0)
    for asked in ((SET_NO_NEW_PRIVILEGES, one, none), (SET_SECCOMP, ctypes.c_ulong(FILTER_MODE), head)):
        if libc.prctl(*asked, none, none) != 0:
            sys.exit(f"no filter of calls: {os.strerror(ctypes.get_errno())}")


def are_refusable():
    """Whether this system lets a process refuse itself calls: Linux, on a machine whose numbers are known, where that is allowed."""
    if sys.platform != "linux" or platform.machine() not in AUDITS:
        return False
    nothing = [sys.executable, __file__, "socket", sys.executable, "-c", ""]
    return subprocess.run(nothing, stderr=subprocess.DEVNULL, timeout=60).returncode == 0


class RefusedCalls(unittest.TestCase):
    @classmethod
    def setUpClass(cls):
        if not are_refusable():
            raise unittest.SkipTest("no filter of calls on this system")

    def expect(self, refused, page, status, output, errors):
        words = [sys.executable, __file__, refused, os.environ["FAXGATE"], "loop"]
        ran = subprocess.run(words, input=page, capture_output=True, text=True, timeout=60)
        self.assertEqual((ran.returncode, ran.stdout, ran.stderr), (status, output, errors))

    def test_no_socket(self):
        self.expect("socket", PAGE, 4, "", "faxgate: no socket of this host: Too many open files (os error 24)\n")

    def test_a_fault_of_the_page_is_told_before_a_socket_is_wanted(self):
        self.expect("socket", "0014d9a", 1, "fault hex\n", "")

    def test_the_called_machine_sends_nothing(self):
        told = "faxgate: the page was not delivered: NoAnswer\n"
        self.expect(f"sendto:{ANSWERER}", PAGE, 5, "job 0 1728 standard 1 0 NoAnswer\n", told)

    def test_the_called_machine_sends_nothing_behind_its_dis(self):
        """The datagrams up to its DIS have 23 octets at most, with what they repeat, and those after it more."""
        told = "faxgate: the page was not delivered: NoReply\n"
        self.expect(f"sendto:{ANSWERER}:24", PAGE, 5, "job 0 1728 standard 1 0 NoReply\n", told)

    def test_nothing_can_be_received(self):
        self.expect("recvfrom", PAGE, 5, "", "faxgate: the page was not delivered: no report of the job\n")


if __name__ == "__main__":
    install(*filter_of(*sys.argv[1].split(":")))
    os.execv(sys.argv[2], sys.argv[2:])
