"""Hosts behind kamailio, each a network of its own, as samples/kamailio.cfg has them: one is killed and cut off, and its spool is begun
elsewhere."""
import contextlib
import os
import pathlib
import signal
import subprocess
import time

from networks import Networks
from sip import page, rows_of
from sip_calls import await_server
from sip_peer import SipPeer, fax_offer, host_of, port_of, user_of
from t38 import Called, Calling, Leg

SAMPLE = pathlib.Path(__file__).resolve().parent.parent.parent / "samples" / "kamailio.cfg"
# The addresses of the sample; the third host is of no name there.
FRONT, TRUNK, PORT = "192.0.2.10", "198.51.100.7", 5060
HOSTS = {"a": "192.0.2.11", "b": "192.0.2.12", "c": "192.0.2.13"}
LINES = 4
# How long a page and what is waited for in its call may take, in seconds.
LONGEST = 90
# A page that takes some 20 s, and the seconds between two packets of it.
LONG, PACE = 1600, 0.04


def configuration(host, spool):
    """A host's: its lines have the same names on each."""
    text = f"control = 'control-{host}'\nspool = '{spool}'\n[sip]\nlocal = '{host}:{PORT}'\naudio = '{host}:40998'\n"
    text += f"[[trunks]]\nname = 't'\naddress = '{FRONT}:{PORT}'\n[[routes]]\nprefix = '+49'\ntrunk = 't'\n"
    for i in range(LINES):
        legs = [f"{leg} = {{ local = '{host}:{40000 + 4 * i + at}' }}\n" for at, leg in enumerate(("calling", "called"))]
        text += f"[[lines]]\nname = 'a{i + 1}'\n{''.join(legs)}"
    return text


class Hosts:
    """The hosts, kamailio before them, and the trunk; as a context manager all of it is gone after."""

    def __init__(self, program, folder):
        self.program, self.folder = program, folder
        self.networks, self._stack, self._servers = Networks(), contextlib.ExitStack(), {}

    def __enter__(self):
        with contextlib.ExitStack() as stack:
            stack.enter_context(self.networks)
            self.networks.add("front", FRONT, TRUNK)
            for name, address in HOSTS.items():
                self.networks.add(name)
                self.networks.join("front", FRONT, name, address)
            stack.callback(self._end)
            stack.enter_context(self.networks.inside("front"))
            stack.enter_context(self._kamailio())
            self.trunk = stack.enter_context(contextlib.closing(SipPeer(PORT, PORT, host=TRUNK, there=FRONT)))
            self._stack = stack.pop_all()
        return self

    def __exit__(self, *_):
        self._stack.close()

    def _end(self):
        for server in self._servers.values():
            server.kill()
            server.wait()

    @contextlib.contextmanager
    def _kamailio(self):
        """kamailio, of the sample; it asks its hosts each second in place of each fifth."""
        text = SAMPLE.read_text(encoding="utf-8").replace('"ds_ping_interval", 5', '"ds_ping_interval", 1')
        text = text.replace("/etc/kamailio/dispatcher.list", str(self.folder / "dispatcher.list"))
        (self.folder / "dispatcher.list").write_text("".join(f"1 sip:{it}:{PORT}\n" for it in HOSTS.values()), encoding="utf-8")
        (self.folder / "kamailio.cfg").write_text(text, encoding="utf-8")
        words = ["kamailio", "-DD", "-f", "kamailio.cfg", "-w", str(self.folder), "-Y", str(self.folder)]
        with open(self.folder / "kamailio.log", "wb") as log:
            proxy = subprocess.Popen(words, cwd=self.folder, stdout=log, stderr=log, start_new_session=True)
        try:
            yield
        finally:
            # kamailio's processes are a group of their own
            os.killpg(proxy.pid, signal.SIGKILL)
            proxy.wait()

    def start(self, name, spool):
        """Begins the server of a host, over a spool."""
        (self.folder / spool).mkdir(exist_ok=True)
        path = self.folder / f"{name}.toml"
        path.write_text(configuration(HOSTS[name], spool), encoding="utf-8")
        with self.networks.inside(name):
            words = [self.program, "serve", "--config", path.name]
            self._servers[name] = subprocess.Popen(words, cwd=self.folder, stdout=subprocess.DEVNULL)
        await_server(self.program, self.folder, f"control-{HOSTS[name]}", self._servers[name])

    def kill(self, name):
        """A host is gone at once."""
        self._servers[name].kill()
        self.networks.cut(name)
        self._servers[name].wait()

    def say(self, name, word):
        """What a word is answered with by the server of a host."""
        words = [self.program, "say", f"control-{HOSTS[name]}", word]
        return subprocess.run(words, cwd=self.folder, capture_output=True, text=True, timeout=LONGEST).stdout.splitlines()

    # Calls.

    def begin(self, number, rows, pace=0.01):
        """A call for a number is taken, and its machine begins to send: the name of its host, the machine, and the dialog."""
        leg = Leg(host=TRUNK, joins=True)
        dialog, answer = self.trunk.call(number, fax_offer(leg.port, host=TRUNK))
        assert answer.status == 200, f"a call was answered {answer.status}"
        leg.there, leg.peer = host_of(answer.body), port_of(answer.body, "image")
        machine = Calling(leg, [page(rows)], pace=pace)
        machine.start()
        return next(name for name, it in HOSTS.items() if it == leg.there), machine, dialog

    def confirmed(self, machine):
        """A machine has its page confirmed, and its call ends then."""
        machine.end(LONGEST)
        assert machine.confirmed == 1, "a page was not confirmed"
        self.trunk.answer(self.trunk.request("BYE", LONGEST), 200)

    def asked(self, number, name):
        """The call for a number that a host asks for; it rings."""
        is_it = lambda it: not it.is_answer and it.method == "INVITE" and user_of(it.target) == number
        invite = self.trunk.next(is_it, LONGEST, f"the call for {number}")
        assert host_of(invite.body) == HOSTS[name], f"the call for {number} is another host's than {name}'s"
        self.trunk.answer(invite, 180)
        return invite

    def take(self, invite, rows):
        """A machine takes the page of a call, which has so many rows."""
        machine = Called(Leg(host=TRUNK, joins=True))
        machine.start()
        self.trunk.take(invite, fax_offer(machine.leg.port, host=TRUNK))
        self.trunk.answer(self.trunk.request("BYE", LONGEST), 200)
        machine.end(LONGEST)
        assert [rows_of(text) for text in machine.pages] == [rows], "a page lacks, or is another one"


def number_of(rows):
    return f"+4930{rows}"


def play(hosts):
    """Pages are confirmed by two hosts and wait; a call is on at each. One is killed: the other's go on, and the pages that it had
    confirmed are sent by a third host, which has its spool."""
    hosts.start("a", "spool-a")
    hosts.start("b", "spool-b")
    time.sleep(5)
    waiting = {"a": {}, "b": {}}
    for rows in (3, 4, 5, 6):
        name, machine, _ = hosts.begin(number_of(rows), rows)
        hosts.confirmed(machine)
        waiting[name][rows] = hosts.asked(number_of(rows), name)
    assert all(waiting.values()), "one host has taken all calls"
    on = {}
    for rows in (LONG, LONG + 1):
        name, machine, dialog = hosts.begin(number_of(rows), rows, PACE)
        on[name] = (rows, machine, dialog)
    assert len(on) == 2, "one host has taken both calls"
    time.sleep(4)
    hosts.kill("a")
    rows, machine, _ = on["b"]
    hosts.confirmed(machine)
    hosts.take(hosts.asked(number_of(rows), "b"), rows)
    for rows, invite in waiting["b"].items():
        hosts.take(invite, rows)
    for rows in (7, 8):
        name, machine, _ = hosts.begin(number_of(rows), rows)
        assert name == "b", "a call went to a host that is gone"
        hosts.confirmed(machine)
        hosts.take(hosts.asked(number_of(rows), "b"), rows)
    _, machine, dialog = on["a"]
    machine.end(LONGEST)
    assert machine.confirmed == 0, "a host that is gone has confirmed a page"
    assert hosts.trunk.again(dialog, "BYE").status >= 400, "a host that is gone has answered"
    # its spool is begun elsewhere, with lines of the same names
    os.rename(hosts.folder / "spool-a", hosts.folder / "elsewhere")
    hosts.start("c", "elsewhere")
    again = {rows: hosts.asked(number_of(rows), "c") for rows in waiting["a"]}
    for rows, invite in again.items():
        assert invite.one("Call-ID") != waiting["a"][rows].one("Call-ID"), "the call of a host that is gone goes on"
        hosts.take(invite, rows)
    time.sleep(2)
    assert hosts.say("c", "undelivered") == ["ok"], "a page could not be delivered"
    assert "faxgate_pages_stored 0" in hosts.say("c", "metrics"), "a page waits"
    return len(waiting["a"])


def hosts_in_networks(program, folder):
    """All of it. What went wrong; nothing where all is well."""
    try:
        with Hosts(program, folder) as hosts:
            count = play(hosts)
    except AssertionError as fault:
        return str(fault) or repr(fault)
    print(f"two hosts behind kamailio, one of them killed: the other's calls went on, and a third host sent its {count} pages", flush=True)
    return ""
