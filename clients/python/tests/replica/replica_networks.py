"""Three machines as network namespaces on a bridge, whose links can be cut and made slow; it needs root."""
import os
import subprocess

MACHINES = 3


def _do(*words):
    subprocess.run(words, check=True, stdout=subprocess.DEVNULL, stderr=subprocess.PIPE)


class Networks:
    """Namespaces of this process: one a machine, one for the bridge, and one for who looks on, with its number 3."""

    def __init__(self, owner=None):
        self._name = f"jpstore{owner or os.getpid()}"
        self.addresses = [f"10.91.7.{machine + 1}" for machine in range(MACHINES)]

    def within(self, machine):
        """The words that run a command on a machine."""
        return ["ip", "netns", "exec", self._space(machine)]

    def _space(self, machine):
        return f"{self._name}-{machine}"

    @property
    def _bridge(self):
        return self._space("bridge")

    def make(self):
        """Makes them; `CalledProcessError` or `OSError` if that isn't possible here."""
        _do("ip", "netns", "add", self._bridge)
        _do("ip", "-n", self._bridge, "link", "add", "bridge", "type", "bridge")
        _do("ip", "-n", self._bridge, "link", "set", "bridge", "up")
        for machine in range(MACHINES + 1):
            space, link = self._space(machine), f"machine{machine}"
            _do("ip", "netns", "add", space)
            _do("ip", "-n", self._bridge, "link", "add", link, "type", "veth", "peer", "name", "eth0", "netns", space)
            _do("ip", "-n", self._bridge, "link", "set", link, "master", "bridge", "up")
            _do("ip", "-n", space, "address", "add", f"10.91.7.{machine + 1}/24", "dev", "eth0")
            for each in ("eth0", "lo"):
                _do("ip", "-n", space, "link", "set", each, "up")

    def remove(self):
        """Removes those that were made."""
        for space in (self._bridge, *map(self._space, range(MACHINES + 1))):
            subprocess.run(["ip", "netns", "delete", space], check=False, stderr=subprocess.DEVNULL)

    def cut(self, machine):
        """Cuts a machine off."""
        _do("ip", "-n", self._bridge, "link", "set", f"machine{machine}", "down")

    def join(self, machine):
        """Ends a cut."""
        _do("ip", "-n", self._bridge, "link", "set", f"machine{machine}", "up")

    def slow(self, machine):
        """Lets little through to a machine and from it, some of it late and some not at all."""
        for place in (["-n", self._bridge, "qdisc", "add", "dev", f"machine{machine}"],
                      ["-n", self._space(machine), "qdisc", "add", "dev", "eth0"]):
            _do("tc", *place, "root", "tbf", "rate", "300kbit", "burst", "3000", "latency", "300ms")

    def fast(self, machine):
        """Ends that."""
        for place in (["-n", self._bridge, "qdisc", "del", "dev", f"machine{machine}"],
                      ["-n", self._space(machine), "qdisc", "del", "dev", "eth0"]):
            _do("tc", *place, "root")
