"""Prints the name of the longest route that covers each address, or - : match_addresses.py ROUTES ADDRESSES

A line of ROUTES is a network and a name, one of ADDRESSES an address. The workers are processes of this machine, or those of
the scheduler that DASK_SCHEDULER_ADDRESS names."""

import sys

import dask.bag
from distributed import Client

from vokujin.dask import match_addresses

if __name__ == "__main__":
    with open(sys.argv[1], encoding="utf-8") as file:
        routes = dict(line.rstrip("\n").split(" ", 1) for line in file)
    with Client() as client:
        addresses = dask.bag.read_text(sys.argv[2], blocksize=1 << 24).map(str.strip)
        for match in match_addresses(client, addresses, routes).compute():
            print(match[1] if match else "-")
