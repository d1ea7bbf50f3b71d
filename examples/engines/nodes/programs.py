"""The programs that are asked: those that are named, or those beside this one."""
import os
import shutil
import sys
from pathlib import Path

HERE = Path(__file__).resolve().parents[1]
BESIDE = Path(sys.argv[0]).absolute().parent


def programs(rest, parser):
    """The program, the one of dump.c, and the words behind them."""
    if rest and not os.path.isdir(rest[0]) and not rest[0].isdigit():
        if len(rest) < 2:
            parser.error("CCELL and DUMP stand together")
        named, rest = rest[:2], rest[2:]
    else:
        named = [own("ccell", BESIDE, HERE.parents[1] / "dist"), own("ccell-dump", BESIDE) or own("dump", HERE)]
    paths = [shutil.which(name) if name else None for name in named]
    for path, name, what in zip(paths, named, ("ccell", "dump")):
        if path is None:
            parser.error(f"no program: {name or what}")
    return *(os.path.realpath(path) for path in paths), rest


def own(name, *folders):
    return shutil.which(name, path=":".join(map(str, folders)))
