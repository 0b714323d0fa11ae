"""What runs of the driver printed, and on what they ran."""

import math
import subprocess

import page


def processor():
    fields = dict(line.split(":", 1) for line in open("/proc/cpuinfo").read().split("\n\n")[0].splitlines())
    of = {key.strip(): value.strip() for key, value in fields.items()}
    return f"{of['model name']} (family {of['cpu family']}, model {of['model']})"


def lapack(has):
    if not has:
        return "not at hand (Debian: liblapack-dev): its column is empty"
    try:
        version = page.told("dpkg-query", "-W", "-f", "${Version}", "liblapack3")
    except (OSError, subprocess.CalledProcessError):
        version = "of unknown version"
    return f"Debian's liblapack {version} with the BLAS beside it"


def read(paths, sides):
    """The seed, and the shapes with the best time of each node on every side over all results. `sides` has their names
    in the order in which the driver prints their times; ratio is the time of the side `ours` over that of the first."""
    found = {}
    for path in paths:
        for word, *values in map(str.split, open(path)):
            if word == "seed":
                seed = values[0]
            elif word == "shape":
                keys = "ncol nrow nb runs target blocks".split()
                shape = found.setdefault(tuple(values[:3]), dict(zip(keys, values), times=[]))
                nodes = iter(range(len(open(path).readlines())))
            else:
                at, times = next(nodes), [float(value) for value in values]
                if at == len(shape["times"]):
                    shape["times"].append(times)
                shape["times"][at] = [min(pair) for pair in zip(shape["times"][at], times)]
    for shape in found.values():
        times = [sum(side) / len(shape["times"]) for side in zip(*shape["times"])]
        shape.update(zip(sides, times))
        shape["ratio"] = shape["ours"] / shape[sides[0]]
    return seed, list(found.values())


def timed(time, digits):
    """A time in a table; nothing where a side was not at hand."""
    return "" if math.isinf(time) else f"{time:.{digits}f}"


def met(shape):
    return "met" if shape["ratio"] <= float(shape["target"]) else "missed"


def facts(seed, shapes, starts, side):
    """What was run, and on what. `side` is LAPACK's."""
    return [
        ["processor", processor()],
        ["Rust", page.told("rustc", "--version")],
        ["library", f"{page.library()}, by {page.told('rt', 'version')}"],
        ["LAPACK", lapack(not any(math.isinf(shape[side]) for shape in shapes))],
        ["seed", seed],
        ["nodes of a shape", str(len(shapes[0]["times"]))],
        ["starts of the program", str(starts)],
    ]
