#!/usr/bin/env python3
"""The program `finish`, written from document 02, request 7, alone, to derive expected outputs. It
is over the world of world_reference.py.

    finish_reference.py < STEPS         prints what `finish` prints
    finish_reference.py check DIR       compares each DIR/NAME.steps with DIR/NAME.out
"""
from plain_log import joined, reference_main
from world_reference import BALLOTS, COORDINATORS, INSTANCES, STEPS, world_after


def quorum(world):
    """The lowest acceptors that are up, as many as a majority has. None where fewer are up."""
    acceptors = range(len(world.acceptors))
    majority = len(acceptors) // 2 + 1
    up = [a for a in acceptors if ("acceptor", a) not in world.down]
    return up[:majority] if len(up) >= majority else None


def can_close(world, coord):
    """The coordinator is up, its queue holds an entry, its current instance is not past the last,
    and it has a ballot for it."""
    c = world.coordinators[coord]
    return (
        ("coord", coord) not in world.down
        and c.queue != []
        and c.applied < INSTANCES
        and world.next_ballot(coord) <= BALLOTS
    )


def closing(world, coord, among):
    """The list with which the coordinator closes its current instance by way of these acceptors."""
    values = coord, world.coordinators[coord].applied, world.next_ballot(coord)
    count = len(world.acceptors)

    def phase(step, first):
        """The step sends a message to each acceptor, the first with this number. Those that are
        delivered are answered, in their order."""
        to_acceptors = [first + a for a in among]
        answers = [first + count + k for k in range(len(among))]
        return [STEPS.text(step, *values)] + [
            STEPS.text("deliver", number) for number in to_acceptors + answers
        ]

    sent = len(world.messages)
    return phase("open", sent) + phase("propose", sent + count + len(among))


def finishing(world):
    """The list for the lowest coordinator that can close its current instance. Empty where none
    can."""
    among = world.acceptors and quorum(world)
    if not among or world.left() < 2 * len(world.acceptors) + 2 * len(among):
        return []
    able = [c for c in range(COORDINATORS) if can_close(world, c)]
    return closing(world, able[0], among) if able else []


def run(data):
    return joined(line.encode() for line in finishing(world_after(data)))


if __name__ == "__main__":
    reference_main(run)
