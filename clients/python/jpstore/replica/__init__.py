"""Replicas of a store: several nodes, each with a store of its own, that do the same log in the same order.

The log is kept by etcd, which orders it. `docs/use/REPLICATED.md` says how to run nodes, and why each change is made
exactly once.
"""
