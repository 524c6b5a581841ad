"""Running nodes of `overcast` for the checks in this folder and for `bench/node`."""

import http.client
import json
import os
import random
import re
import resource
import shutil
import signal
import socket
import subprocess
import sys
import tempfile
import time

TOP = os.path.dirname(os.path.dirname(os.path.abspath(__file__)))
PROGRAM = os.environ.get("OVERCAST", os.path.join(TOP, "crates", "overcast", "out", "overcast"))
# The status of a script that cannot run on this machine; `checks/all` counts it as left out.
LEFT_OUT = 77
# The first port of nodes, above those of the examples.
FIRST_PORT = 10_000


def need_program():
    """Ends with a line on how to build the program, if it is not built."""
    if not os.access(PROGRAM, os.X_OK):
        sys.exit("the program is not built; build it by: ./overcast --build")


def leave_out(why):
    """Ends the script with a line on why it cannot run here."""
    print(f"left out: {why}", flush=True)
    sys.exit(LEFT_OUT)


def need_tools(*names):
    """Leaves the script out if one of these tools is missing."""
    missing = [it for it in names if shutil.which(it) is None]
    if missing:
        leave_out(f"{' and '.join(missing)} {'is' if len(missing) == 1 else 'are'} not installed")


def processor(pid):
    """The processor seconds that a process has taken."""
    with open(f"/proc/{pid}/stat") as it:
        fields = it.read().rsplit(")", 1)[1].split()
    return (int(fields[11]) + int(fields[12])) / os.sysconf("SC_CLK_TCK")


# A socket name for each port that was given out: the system frees it when the script ends, whatever its end.
claims = []


def is_free(port):
    """Whether nobody listens at a port of 127.0.0.1 and no other script has it; from then on this one has it."""
    with socket.socket() as it:
        # Connections that ended a moment ago do not keep a port from a node.
        it.setsockopt(socket.SOL_SOCKET, socket.SO_REUSEADDR, 1)
        try:
            it.bind(("127.0.0.1", port))
        except OSError:
            return False
    claim = socket.socket(socket.AF_UNIX)
    try:
        claim.bind(f"\0overcast-port-{port}")
    except OSError:
        claim.close()
        return False
    claims.append(claim)
    return True


def free_ports(count):
    """Ports of 127.0.0.1 at which nobody listens, and which no other running script gets. They lie outside the range that
    the system uses for outgoing connections, so the port of a node that is away for a while stays free."""
    with open("/proc/sys/net/ipv4/ip_local_port_range") as it:
        end = max(int(it.read().split()[0]), FIRST_PORT + 1_000)
    ports = []
    for port in random.sample(range(FIRST_PORT, end), end - FIRST_PORT):
        if len(ports) == count:
            break
        if is_free(port):
            ports.append(port)
    return ports


def need_ports(*ports):
    """Waits until no other script has these ports; from then on this one has them."""
    end = time.monotonic() + 300
    for port in ports:
        while not is_free(port):
            if time.monotonic() > end:
                sys.exit(f"another program listens at port {port}")
            time.sleep(0.5)


def measured(lines):
    """The key of a configuration that has these measures."""
    return 'measures = """\n' + "\n".join(lines) + '\n"""\n\n'


class Network:
    """Nodes on free ports of this machine, or at the port 7001 of these hosts, each in a folder of its own."""

    def __init__(self, count, chain=1, areas=None, tail="", measures=(), hosts=None):
        need_program()
        self.folder = tempfile.TemporaryDirectory(prefix="overcast-")
        self.hosts = hosts or ["127.0.0.1"] * count
        self.ports = [7001] * count if hosts else free_ports(count)
        self.nodes = {}
        tables = [
            f'[[node]]\nid = {at}\naddress = "{host}:{port}"\narea = {(areas or {}).get(at, 0)}\n'
            for at, (host, port) in enumerate(zip(self.hosts, self.ports), 1)
        ]
        self.configuration = (f"chain = {chain}\n\n" + (measured(measures) if measures else "") + "\n".join(tables) + "\n" + tail)

    def __enter__(self):
        return self

    def __exit__(self, *_):
        for it in list(self.nodes):
            self.kill(it)
        self.folder.cleanup()

    def home(self, node):
        """The folder of a node's files."""
        path = os.path.join(self.folder.name, str(node))
        os.makedirs(path, exist_ok=True)
        return path

    def start(self, node, *words, head="", files=None, under=()):
        """Starts a node with further arguments, these lines at the top of its configuration, this limit on open files, and under
        the command `under`; returns once it listens."""
        home = self.home(node)
        with open(os.path.join(home, "network.toml"), "w") as it:
            it.write(head + self.configuration)
        words = [*under, PROGRAM, "node", str(node), "--config", "network.toml", *words]
        with open(os.path.join(home, "lines"), "ab") as lines, open(os.path.join(home, "errors"), "ab") as errors:
            it = subprocess.Popen(words, cwd=home, stdin=subprocess.DEVNULL, stdout=lines, stderr=errors,
                                  preexec_fn=files and (lambda: resource.setrlimit(resource.RLIMIT_NOFILE, (files, files))))
        self.nodes[node] = it
        self.wait_for(lambda: self.listens(node), f"node {node} listens")
        return it

    def listens(self, node):
        if self.nodes[node].poll() is not None:
            raise AssertionError(f"node {node} ended with {self.nodes[node].returncode}: {self.errors(node)}")
        with socket.socket() as it:
            return it.connect_ex(self.address(node)) == 0

    def address(self, node):
        return self.hosts[node - 1], self.ports[node - 1]

    def kill(self, node, by=signal.SIGKILL):
        """Ends a node by a signal, and waits for its end."""
        it = self.nodes.pop(node)
        it.send_signal(by)
        it.wait()

    def lines(self, node):
        """The output of a node so far."""
        with open(os.path.join(self.home(node), "lines")) as it:
            return it.read().splitlines()

    def errors(self, node):
        with open(os.path.join(self.home(node), "errors")) as it:
            return it.read()

    def url(self, node, path):
        return f"http://{self.hosts[node - 1]}:{self.ports[node - 1]}{path}"

    def ask(self, node, method, path, body=None, timeout=10, fields=None):
        """The status, the fields and the body of a node's reply."""
        it = http.client.HTTPConnection(*self.address(node), timeout=timeout)
        try:
            it.request(method, path, body=body, headers=fields or {})
            reply = it.getresponse()
            return reply.status, dict(reply.getheaders()), reply.read()
        finally:
            it.close()

    def status(self, node):
        """The status report of a node."""
        status, _, body = self.ask(node, "GET", "/!status")
        assert status == 200, (node, status)
        return json.loads(body)

    def asks(self):
        """For each running node, the number of times it has asked another to be its parent since its first start."""
        return {node: self.status(node)["seq"] for node in self.nodes}

    def parents(self):
        """The parent of each running node, 0 for one that acts as root, and None for one that is not in the tree."""
        told = {node: self.status(node) for node in self.nodes}
        return {node: it["parent"] if it["mode"] == "joined" else 0 if it["mode"] == "acting" else None for node, it in told.items()}

    def disturbed(self):
        """The reasons why running nodes with a place ask again: failed dials, and replies that a lease is not known; and the
        intervals of their ticks. On an overloaded machine there are some."""
        found = []
        for node in sorted(self.nodes):
            lines = self.lines(node)
            ticks = [int(line.split()[2]) for line in lines if line.startswith("tick ")]
            failed = sum(line.startswith("fail ") for line in lines)
            again = sum(re.match(rf"recv {node} [0-9a-f]{{16}}08", line) is not None for line in lines)
            found.append(f"{node}: {failed} failed dials, told {again} times to join again, ticks at most "
                         f"{max((b - a for a, b in zip(ticks, ticks[1:])), default=0)} s apart")
        return "; ".join(found)

    def check(self, node, nodes, chain, home=None):
        """The lines of `overcast check` over the files of a node that does not run, in its folder or another."""
        it = subprocess.run([PROGRAM, "check", str(node), str(nodes), str(chain)],
                            cwd=home or self.home(node), capture_output=True, text=True)
        assert it.returncode == 0, (it.returncode, it.stderr)
        return it.stdout.splitlines()

    def has_joined(self, node):
        """Whether the last `yes` has reached a node, which from then on takes its parent's content."""
        return any(re.match(rf"recv {node} [0-9a-f]{{16}}04|is joined ", line) for line in self.lines(node))

    @staticmethod
    def wait_for(holds, what, seconds=60, step=0.02):
        """Waits until a condition holds, and tests it every `step` seconds."""
        end = time.monotonic() + seconds
        while not holds():
            if time.monotonic() > end:
                raise AssertionError(f"not within {seconds} s: {what}")
            time.sleep(step)


def run(*words, home=None, **more):
    """The result of a command of the program."""
    return subprocess.run([PROGRAM, *words], cwd=home, capture_output=True, **more)
