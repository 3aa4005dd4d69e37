"""Large inputs of a case, which the case's file `make` names, one a line: the file, one of the ways below and its words."""

import os


def repeated(header, row, times):
    """The header, and the same row so many times."""
    return header + "\n" + (row + "\n") * int(times)


def numbered(header, first, last, rest):
    """The header, and rows that begin with the numbers from the first to the last, down or up, and end alike."""
    first, last = int(first), int(last)
    numbers = range(first, last + 1) if first <= last else range(first, last - 1, -1)
    return header + "\n" + "".join(f"{it}{rest}\n" for it in numbers)


def padded(header, length):
    """The header, and empty lines up to so many bytes."""
    return (header + "\n").ljust(int(length), "\n")


def waves(riders, times):
    """A script in which so many riders ask at a time and are all gone by the next seal; then one more asks, and one whom
    the book has already."""
    riders, times = int(riders), int(times)
    rows = ["round,lane,command,a,b,c,d"]
    for k in range(times):
        rows += [f"{k},0,submit,{k * riders + it},1,2,{k}" for it in range(riders)]
        rows.append(f"{k},0,seal,{k + 1},,,")
    last = [f"{times},0,submit,{rider},1,2,{times}" for rider in (riders * times, 0)]
    return "\n".join([*rows, *last, ""])


WAYS = {"repeated": repeated, "numbered": numbered, "padded": padded, "waves": waves}


def make(line, folder):
    name, way, *words = line.split(" ")
    if way == "sparse":
        make_sparse(folder / name, *words)
    else:
        (folder / name).write_text(WAYS[way](*words))


def make_sparse(path, header, length):
    """The header, and bytes of zero up to so many, which take no room on the disk."""
    path.write_text(header + "\n")
    os.truncate(path, int(length))
