"""Prints how often each word occurs in files: count_words.py FILE ..

The workers are processes of this machine, or those of the scheduler that DASK_SCHEDULER_ADDRESS names."""

import sys

from distributed import Client, progress

from vokujin.dask import count_words, word_lines

if __name__ == "__main__":
    with Client() as client:
        counts = count_words(client, sys.argv[1:])
        if sys.stderr.isatty():
            progress(counts)
        sys.stdout.buffer.write(word_lines(counts.result()))
