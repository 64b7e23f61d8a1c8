"""Peers and runs that the trial gateways uses against the programs of examples/gateway."""
