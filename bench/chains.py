"""The chains that are timed: four kinds, of any size, the same ones each time."""
import os


def draws(number):
    while True:
        number = (number * 6364136223846793005 + 1442695040888963407) % 2**64
        yield number >> 33


def three_entries(state, states, draw):
    """The next state and one drawn at random; with the loop's share, a row has three entries."""
    return [state % states + 1, 1 + next(draw) % states]


def three_to_five(state, states, draw):
    return [state % states + 1] + [1 + next(draw) % states for _ in range(1 + next(draw) % 3)]


def banded(state, states, draw):
    """Two states that are at most 16 away."""
    return [(state + next(draw) % 33 - 17) % states + 1, state % states + 1]


def half_absorbing(state, states, draw):
    """As with three entries, but each other state is never left."""
    return three_entries(state, states, draw) if state % 2 else []


KINDS = [three_entries, three_to_five, banded, half_absorbing]


def write_chain(kind, folder, states):
    """Rates are from 1 to 9, and no state is left with more than 18; the last state is the goal. Answers the files' names."""
    draw = draws(1)
    lines = []
    for state in range(1, states + 1):
        targets = sorted(set(kind(state, states, draw)))
        lines += [f"{state} {target} {1 + next(draw) % (18 // len(targets))}\n" for target in targets]
    tra, lab = os.path.join(folder, "M.tra"), os.path.join(folder, "M.lab")
    with open(tra, "w") as file:
        file.write(f"STATES {states}\nTRANSITIONS {len(lines)}\n" + "".join(lines))
    with open(lab, "w") as file:
        file.write(f"#DECLARATION\ngoal\n#END\n{states} goal\n")
    return tra, lab
