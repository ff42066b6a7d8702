"""The made text of the benches: an item on each line, of five kinds, each of which names those before it, as `--make` makes it."""


def item(i):
    return (
        f"let v{i} = {i}",
        f"let f{i} x = x + v{i - 1}",
        f"type t{i} = A{i} | B{i} of int",
        f"let g{i} y = match y with A{i - 1} -> 0 | B{i - 1} n -> f{i - 2} n",
        f"module M{i} = struct let w = g{i - 1} A{i - 2} end",
    )[i % 5]


def made(items):
    return "".join(item(i) + "\n" for i in range(items))
