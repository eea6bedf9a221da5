"""A cluster of Dask with two workers for .ci/programs.py: writes the address of its scheduler, and the numbers of the
workers' processes; ends with its standard input. A shard that loses one worker is tried once more, and no further."""

import logging
import os
import sys

import dask
import distributed

if __name__ == "__main__":
    dask.config.set({"distributed.scheduler.allowed-failures": 1})
    workers = {"n_workers": 2, "threads_per_worker": 1, "local_directory": os.getcwd()}
    with distributed.LocalCluster(**workers, dashboard_address=None, silence_logs=logging.CRITICAL) as cluster:
        with distributed.Client(cluster) as client:
            print(cluster.scheduler_address, *client.run(os.getpid).values(), flush=True)
        sys.stdin.read()
