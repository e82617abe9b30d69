"""The parts that tools/protocol.py writes and compares."""
