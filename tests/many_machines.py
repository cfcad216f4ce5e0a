"""What `many` runs on clusters of this machine: Dask with four worker processes, one of which is killed, and MPI.

usage, by `checks` alone: many_machines.py dask|mpi FOLDER

A Python that has the package runs this file as a program, which prints a line of JSON for each check.
"""
import json
import os
import shutil
import signal
import subprocess
import sys
import threading
import time
from typing import Any, Iterator, List, Optional, Tuple

from program import REPOSITORY, python_with, to_install

sys.path.insert(0, os.path.join(REPOSITORY, "python"))
import atgis  # noqa: E402
import atgis_many  # noqa: E402

COUNT, SIZE, SMALL = 600, 8_000, 1_000
WAYS = {"dask": ["distributed"], "mpi": ["mpi4py.futures", "mpiexec"]}  # a module, and commands
SLOW = '#!/bin/sh\ncase " $* " in *@w:0*) ;; *) sleep 0.1;; esac\nexec "$REAL" "$@"\n'
Check = Tuple[str, Optional[str]]


def differs(what: str, got: object, wanted: object) -> Check:
    """A check, and what is wrong with it."""
    return what, None if got == wanted else f"{got!r}, not {wanted!r}"


def files(folder: str) -> List[str]:
    """Files of the forms, of which the last has a fault near its end."""
    points = [f"POINT ({number % 180} {number % 90})" for number in range(COUNT)]
    texts = ['{"type":"Feature","properties":{"k":"},{"},"geometry":{"type":"Point","coordinates":[%d,%d]}}'
             % (number % 180, number % 90) for number in range(COUNT)]
    made = {"m.wkt": "\n".join(points), "m.geojsonl": "\n".join(texts),
            "m.geojson": '{"type":"FeatureCollection","features":[' + ",\n".join(texts) + "]}",
            "f.wkt": "\n".join([*points, "POINT (1", "POINT (1 2)"])}
    for name, text in made.items():
        with open(os.path.join(folder, name), "w", encoding="ascii") as file:
            file.write(text)
    return [os.path.join(folder, name) for name in made]


def by(executor: Any, path: str) -> List[Any]:
    """What is answered of a file by an executor, or by threads: the same by both."""
    data = atgis_many.Dataset(path, executor=executor, part_size=SIZE, progress=False)
    asked = [data.count, data.hull, lambda: list(data.select("in box(3 3,9 9)")),
             lambda: list(data.join(data, "in box(1 1,2 2)"))]
    return [answered(one) for one in asked]


def answered(ask: Any) -> Any:
    """An answer, or the line of the fault."""
    try:
        return ask()
    except atgis.Fault as fault:
        return fault.line


def asked_checks(way: str, executor: Any, folder: str) -> Iterator[Check]:
    """Compares answers by an executor with those by threads."""
    for path in files(folder):
        yield differs(f"{way}: {os.path.basename(path)}", by(executor, path), by(None, path))


def dask_checks(folder: str) -> Iterator[Check]:
    """Runs a scheduler with four worker processes."""
    from distributed import Client, LocalCluster
    with LocalCluster(n_workers=4, threads_per_worker=1, processes=True, dashboard_address=None) as cluster:
        with Client(cluster) as client:
            for module in atgis_many.MODULES:
                client.upload_file(module)
            yield differs("dask: workers", len(client.scheduler_info()["workers"]), 4)
            yield from asked_checks("dask", client.get_executor(), folder)
            path = os.path.join(folder, "m.geojsonl")
            yield killed_check(client, path)
        words = [sys.executable, os.path.join(REPOSITORY, "tools", "atgis-many"), "--dask", cluster.scheduler_address,
                 "--part", "4k", "count", os.path.basename(path)]
        done = subprocess.run(words, capture_output=True, text=True, cwd=folder, check=False)
        yield differs("dask: the command", (done.stdout, done.returncode), (f"{COUNT}\n", 0))


def killed_check(client: Any, path: str) -> Check:
    """Kills a worker while it has work."""
    processes = list(client.run(os.getpid).values())

    def kill() -> None:
        time.sleep(0.5)
        os.kill(processes[0], signal.SIGKILL)
    threading.Thread(target=kill).start()
    data = atgis_many.Dataset(path, executor=client.get_executor(), part_size=SMALL, progress=False,
                              program=os.environ["SLOW"])
    count = data.count()
    return differs("dask: a worker is killed", (count, processes[0] in client.run(os.getpid).values()), (COUNT, False))


def mpi_checks(folder: str) -> Iterator[Check]:
    """Asks by the processes of an MPI run, as one of which this runs."""
    from mpi4py.futures import MPIPoolExecutor
    with MPIPoolExecutor() as executor:
        yield from asked_checks("mpi", executor, folder)


def ran(way: str, python: str, folder: str) -> Iterator[Check]:
    """Runs this file as a program, and reads what it prints."""
    start = {"dask": [python], "mpi": ["mpiexec", "--oversubscribe", "-n", "3", python, "-m", "mpi4py.futures"]}[way]
    slow = os.path.join(folder, "slow")
    for end in ("", "-part"):
        with open(slow + end, "w", encoding="ascii") as file:
            file.write(SLOW.replace('"$REAL"', f'"$REAL{end}"'))
        os.chmod(slow + end, 0o755)
    env = {**os.environ, "REAL": os.environ["ATGIS"], "SLOW": slow, "OMPI_ALLOW_RUN_AS_ROOT": "1",
           "OMPI_ALLOW_RUN_AS_ROOT_CONFIRM": "1", "PYTHONPATH": os.path.join(REPOSITORY, "python")}
    try:
        done = subprocess.run([*start, os.path.abspath(__file__), way, folder], env=env, capture_output=True, text=True,
                              timeout=400, check=False)
    except subprocess.TimeoutExpired:
        yield f"{way}: it ends", "it was stopped after 400 seconds"
        return
    found = [json.loads(line) for line in done.stdout.splitlines() if line.startswith("[")]
    yield from ((what, wrong) for what, wrong in found)
    yield f"{way}: all is checked", None if found and done.returncode == 0 else done.stderr[-500:] or "nothing is told"


def checks(folder: str) -> Tuple[List[Check], List[str]]:
    """What was checked, and what is skipped for want of a package."""
    found: List[Check] = []
    skipped = []
    for way, (module, *commands) in WAYS.items():
        python = python_with(module)
        absent = [name for name in commands if not shutil.which(name)] + ([] if python else [module])
        if python and not absent:
            found += ran(way, python, folder)
        else:
            skipped.append(f"clusters of {way} {to_install(*absent)}")
    return found, skipped


def main() -> None:
    """Prints the checks of one way."""
    way, folder = sys.argv[1:3]
    for check in {"dask": dask_checks, "mpi": mpi_checks}[way](folder):
        print(json.dumps(check), flush=True)


if __name__ == "__main__":
    main()
