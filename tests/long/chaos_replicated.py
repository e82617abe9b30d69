#!/usr/bin/env python3
"""A long chaos of nodes of a replicated store, on loopback, over network namespaces, and with little space in etcd.

    chaos_replicated.py PROGRAM [--rounds N] [--seed S] [--lanes N] [PART..]

The parts, all if none is named, share the rounds, which are 500 if nothing is said:

  loopback   As `tests/gate/test_replicated.py PROGRAM chaos`.
  networks   The same with each machine in a network namespace of its own. Links are cut, of one machine or of two, or made
             slow. It needs root and `ip netns`; without them its rounds are done on loopback too, and that is said.
  quotas     The same over two logs in one etcd, whose quota is used up again and again: then one of the logs is trimmed, and
             etcd gets space.

Each part is done in so many lanes (2), each with a seed of its own, and so many run side by side: 500 rounds take some 25
minutes on a quiet machine of four processors. What it needs beyond that, it installs or names as
tests/gate/test_replicated.py does. The last line is `N passed, M failed`.
"""
import argparse
import concurrent.futures
import os
import random
import subprocess
import sys
import time

sys.path.insert(0, os.path.join(os.path.dirname(os.path.abspath(__file__)), "..", "gate"))
from test_replicated import in_a_process, prepare, run_chaos, tried

PARTS = ["loopback", "networks", "quotas"]


def cut_links(networks):
    """The events of networks: links of a machine, or of two, are cut or slow for a while."""
    def during(begin, end, machines):
        for machine in machines:
            begin(machine)
        time.sleep(random.random() * 3)
        for machine in machines:
            end(machine)
    return {"cut": lambda chaos, node, member: during(networks.cut, networks.join, [member]),
            "cut two": lambda chaos, node, member: during(networks.cut, networks.join, [member, (member + 1) % 3]),
            "slow": lambda chaos, node, member: during(networks.slow, networks.fast, [member]),
            "cut again": lambda chaos, node, member: during(networks.cut, networks.join, [member])}


def over_networks(folder, program, rounds, seed, owner):
    """The chaos, run within the namespace of who looks on."""
    from replica_chaos import Chaos
    from replica_networks import Networks
    from replicas import NODES, Members
    networks = Networks(owner)
    within = [networks.within(machine) for machine in range(3)]
    members = Members(folder, addresses=networks.addresses, within=within)
    chaos = Chaos(folder, program, rounds, seed, members=members, within=dict(zip(NODES, within)),
                  events=cut_links(networks))
    problems, counts = chaos.run()
    assert not problems, "\n".join(problems[:10])
    return str(counts)


def with_little_space(folder, program, rounds, seed):
    """The chaos over two logs in an etcd that has little space."""
    from replica_chaos import Chaos
    problems, counts = Chaos(folder, program, rounds, seed, quota=True).run()
    assert not problems, "\n".join(problems[:10])
    return str(counts)


def in_namespaces(program, rounds, seed):
    """Makes the namespaces, and runs the chaos in them; None if that isn't possible here."""
    from replica_networks import Networks
    networks = Networks()
    try:
        networks.make()
        again = [*networks.within(3), sys.executable, os.path.abspath(__file__), program, "--rounds", str(rounds), "--seed", str(seed),
                 "--owner", str(os.getpid())]
        return subprocess.call(again) == 0
    except (OSError, subprocess.CalledProcessError) as error:
        print(f"no network namespaces can be made here, so all rounds are on loopback: {error}", flush=True)
        return None
    finally:
        networks.remove()


def is_passed(part, program, rounds, seed):
    """Does a lane of a part; returns whether nothing was wrong."""
    found = in_namespaces(program, rounds, seed) if part == "networks" else None
    if found is not None:
        return found
    run = with_little_space if part == "quotas" else run_chaos
    what = "with little space" if part == "quotas" else "on loopback"
    return tried(f"chaos of {rounds} rounds {what}, seed {seed}", lambda folder: run(folder, program, rounds, seed))


def main():
    parser = argparse.ArgumentParser(description=__doc__, formatter_class=argparse.RawDescriptionHelpFormatter)
    parser.add_argument("program")
    parser.add_argument("parts", nargs="*", metavar="PART", help=", ".join(PARTS))
    parser.add_argument("--rounds", type=int, default=500)
    parser.add_argument("--seed", type=int, default=random.randrange(1 << 32))
    parser.add_argument("--lanes", type=int, default=2)
    parser.add_argument("--owner", type=int, help=argparse.SUPPRESS)
    parser.add_argument("--only", type=int, help=argparse.SUPPRESS)
    words = parser.parse_args()
    program, parts = os.path.abspath(words.program), words.parts or PARTS
    prepare()
    if words.owner is not None:
        what = f"chaos of {words.rounds} rounds over networks, seed {words.seed}"
        return int(not tried(what, lambda folder: over_networks(folder, program, words.rounds, words.seed, words.owner)))
    lanes = [part for _ in range(words.lanes) for part in parts]
    if words.only is not None:
        return int(not is_passed(lanes[words.only], program, -(-words.rounds // len(lanes)), words.seed + words.only))
    print(f"seed {words.seed}", flush=True)
    again = [sys.executable, os.path.abspath(__file__), program, *parts, "--rounds", str(words.rounds), "--seed", str(words.seed),
             "--lanes", str(words.lanes)]
    with concurrent.futures.ThreadPoolExecutor(words.lanes) as pool:
        passed = list(pool.map(lambda number: in_a_process(again, number), range(len(lanes))))
    print(f"{passed.count(True)} passed, {passed.count(False)} failed")
    return 1 if passed.count(False) else 0


if __name__ == "__main__":
    sys.exit(main())
