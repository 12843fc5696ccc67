"""The runner for hosts: takes legs from a hub, runs their steps, and reports how they ended."""
