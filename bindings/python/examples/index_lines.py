"""Prints the lines of files that start with a prefix, and where they stand: index_lines.py PREFIX FILE ..

The workers are processes of this machine, or those of the scheduler that DASK_SCHEDULER_ADDRESS names."""

import os
import sys

from distributed import Client

from vokujin.dask import index_lines

if __name__ == "__main__":
    with Client() as client:
        index = index_lines(client, sys.argv[2:])
        for line, places in index.prefix(os.fsencode(sys.argv[1])):
            print(f"{os.fsdecode(line)}: {', '.join(f'{file} at {offset}' for file, offset in places)}")
