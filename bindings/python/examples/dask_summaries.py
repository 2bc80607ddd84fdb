"""Reads what pictures tell with Dask: python3 dask_summaries.py SCHEDULER FOLDER OUT.

SCHEDULER is the address or the scheduler file of a Dask scheduler, whose workers see FOLDER under
the same name and have this package. OUT gets a JSON object on each line, in the order of the paths.
"""

import json
import os
import pathlib
import sys

from distributed import Client

BATCH = 500


def summaries(paths):
    """A JSON object for each path, as lines. A file that can't be read has the reason in `error`."""
    import mexaldor

    lines = []
    for path in paths:
        try:
            found = mexaldor.read(path)["summary"]
        except (mexaldor.Refused, OSError) as error:
            found = {"error": str(error)}
        lines.append(json.dumps({"path": path, **found}))
    return lines


def main(scheduler, folder, out):
    paths = sorted(str(it) for it in pathlib.Path(folder).rglob("*") if it.is_file())
    batches = [paths[at : at + BATCH] for at in range(0, len(paths), BATCH)]
    where = {"scheduler_file": scheduler} if os.path.exists(scheduler) else {"address": scheduler}
    with Client(**where) as client, open(out, "w", encoding="utf-8") as lines:
        for batch in client.map(summaries, batches):
            for line in batch.result():
                print(line, file=lines)
            batch.release()
    print(f"{len(paths)} pictures")


if __name__ == "__main__":
    main(*sys.argv[1:])
