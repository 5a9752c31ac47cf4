"""A scheduler and workers of Dask, where Debian's python3-distributed is here. What starts them has read Dask once."""
import importlib.util
import multiprocessing
import os
import pathlib
import sys
from collections.abc import Mapping
from multiprocessing.process import BaseProcess
from types import ModuleType
from unittest import mock

MISSING = "Dask isn't here: install python3-distributed"
COMMANDS = {"scheduler": "distributed.cli.dask_scheduler", "worker": "distributed.cli.dask_worker"}
# They look at themselves less often, which takes most of their time where they do little. No page is served: without
# its address it would be open to other machines.
QUIET = {"distributed.worker.profile.enabled": False, "distributed.admin.tick.interval": "1s"}
PAGE = "--no-dashboard", "--dashboard-address", "127.0.0.1:0"
SERVER = multiprocessing.get_context("forkserver")
SERVER.set_forkserver_preload([*COMMANDS.values()])


def is_here() -> bool:
    return importlib.util.find_spec("distributed") is not None


def started(folder: pathlib.Path, env: Mapping[str, str], command: str, *words: str) -> BaseProcess:
    """It reads nothing of the program that runs the tests."""
    child = SERVER.Process(target=run, args=(folder, env, command, words))
    with mock.patch.dict(sys.modules, {"__main__": ModuleType("__main__")}):
        child.start()
    return child


def run(folder: pathlib.Path, env: Mapping[str, str], command: str, words: tuple[str, ...]) -> None:
    """In the process that was started. What it tells is told to nobody."""
    import dask
    os.chdir(folder)
    os.environ.update(env)
    nothing = os.open(os.devnull, os.O_WRONLY)
    for stream in (1, 2):
        os.dup2(nothing, stream)
    dask.config.set(QUIET)
    importlib.import_module(COMMANDS[command]).main([*words, *PAGE], standalone_mode=False)
