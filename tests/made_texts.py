"""Makes the three texts of a made workload, independently of the crate that makes them.

Usage: made_texts.py SEED SIDE VEHICLES RIDERS ROUNDS network|fleet|script

tests/drawn.py holds what `load` says to the report of these texts.
"""

import sys

MASK = (1 << 64) - 1


def outputs(seed):
    """The 64-bit outputs of SplitMix64 (Steele, Lea and Flood, 2014) from this state on."""
    state = seed
    while True:
        state = (state + 0x9E3779B97F4A7C15) & MASK
        z = state
        z = ((z ^ (z >> 30)) * 0xBF58476D1CE4E5B9) & MASK
        z = ((z ^ (z >> 27)) * 0x94D049BB133111EB) & MASK
        yield z ^ (z >> 31)


def texts(seed, side, vehicles, riders, rounds):
    stream = outputs(seed)

    def draw(n):
        return next(stream) % n

    def node(i, j):
        return i * side + j + 1

    network = ["from,to,seconds"]
    for i in range(side):
        for j in range(side):
            if j + 1 < side:
                seconds = 20 + draw(41)
                network.append(f"{node(i, j)},{node(i, j + 1)},{seconds}")
                network.append(f"{node(i, j + 1)},{node(i, j)},{seconds}")
            if i + 1 < side:
                seconds = 20 + draw(41)
                network.append(f"{node(i, j)},{node(i + 1, j)},{seconds}")
                network.append(f"{node(i + 1, j)},{node(i, j)},{seconds}")

    fleet = ["vehicle,seats,node,second"]
    for v in range(1, vehicles + 1):
        fleet.append(f"{v},4,{1 + draw(side * side)},0")

    script = ["round,lane,command,a,b,c,d"]
    for k in range(rounds):
        if k > 0:
            for v in range(1, vehicles + 1):
                script.append(f"{2 * k},0,report,{v},{1 + draw(side * side)},{60 * k},")
        for m in range(1, riders + 1):
            origin = 1 + draw(side * side)
            destination = 1 + draw(side * side - 1)
            if destination >= origin:
                destination += 1
            second = 60 * k + draw(60)
            script.append(f"{2 * k},{1 + m % 3},submit,{k * riders + m},{origin},{destination},{second}")
        script.append(f"{2 * k + 1},0,seal,{60 * (k + 1)},,,")

    return ["".join(line + "\n" for line in lines).encode() for lines in (network, fleet, script)]


def main():
    *numbers, what = sys.argv[1:]
    made = texts(*map(int, numbers))
    sys.stdout.buffer.write(made[("network", "fleet", "script").index(what)])


if __name__ == "__main__":
    main()
