"""A session with a world: session.py PROGRAM FOLDER. It prints each request with its reply, kills the program in the middle
of a request, and goes on with what stands then. What it prints is session.expected, whenever the kill comes."""

import os
import sys

from client import World

HERE = os.path.dirname(os.path.abspath(__file__))


def show(world, *words):
    print(f"{' '.join(map(str, words)):<28}{world.ask(*words)}")


def load(world, module):
    print(f"{f'load {module}':<28}{world.load(module, f'{HERE}/{module}.as')}")


def begin(world):
    load(world, "market")
    load(world, "quests")
    show(world, "call", "market", "open")
    # two players, and what they buy
    show(world, "call", "market", "join", 300)
    show(world, "call", "market", "join", 60)
    show(world, "call", "market", "buy", 0, 2)
    show(world, "call", "market", "buy", 0, 3)
    show(world, "call", "market", "buy", 1, 4)
    # a chest with room for one item: the second is an exception, and stays in the bag
    show(world, "call", "market", "buyChest", 0, 1)
    show(world, "call", "market", "stash", 0, 2)
    show(world, "call", "market", "stash", 0, 3)
    show(world, "call", "market", "use", 0, 3)
    # quests
    show(world, "call", "quests", "beat", 5, 80)
    show(world, "call", "quests", "find", 2)
    show(world, "call", "quests", "walk", 30)
    show(world, "call", "quests", "report", 1, 3)
    show(world, "call", "quests", "report", 2, 2)
    show(world, "call", "quests", "report", 3, 12)
    show(world, "call", "quests", "wanted")
    # a script that does not end, and one that is called wrongly
    show(world, "call", "quests", "enchant")
    show(world, "call", "market", "worth")
    return int(world.ask("seq").split()[1])


def go_on(world, answered, request):
    """Goes on after a kill, when this many requests were answered and one more may have been. If it was not, it is sent
    again: so it happens once."""
    found = int(world.ask("seq").split()[1])
    if found == answered:
        world.ask(*request)
    print(f"{'seq':<28}{world.ask('seq')}")


def look(world):
    show(world, "get", "market", "players")
    # the second player, and the chest of the first: its state is its capacity and its items
    show(world, "object", 11)
    show(world, "object", 15)
    show(world, "call", "market", "worth", 0)
    show(world, "call", "market", "worth", 1)
    show(world, "call", "quests", "earned")


def main(program, folder):
    world = World(program, folder)
    answered = begin(world)
    # A purchase is sent, and the program is killed at once. It has happened or not; nobody knows yet.
    purchase = ["call", "market", "buy", 1, 1]
    world.send(" ".join(map(str, purchase)).encode() + b"\n")
    world.kill()
    print("-- killed --")

    world = World(program, folder)
    go_on(world, answered, purchase)
    look(world)
    # both modules see one service: what quests have earned, the market pays out
    show(world, "call", "market", "collect", 1)
    show(world, "call", "quests", "earned")
    # all of these or none, with the syncs of one
    requests = ["call market buy 1 2", "call market fetch 0", "get quests done"]
    for request, reply in zip(requests, world.batch(*requests)):
        print(f"{request:<28}{reply}")
    show(world, "call", "market", "leave", 0)
    world.quit()


if __name__ == "__main__":
    if len(sys.argv) != 3:
        sys.exit("session.py PROGRAM FOLDER")
    main(*sys.argv[1:])
