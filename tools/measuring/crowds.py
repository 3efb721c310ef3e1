"""Scenarios of many threads: a crowd that waits beside one that moves, clients of one server, threads that halt at once."""
from measuring.scenes import LOOP, SHORT, Scene, call

# The most user threads that a crowd has in one space.
IN_SPACE = 200
# What each of a crowd does until it waits: at a locked mutex, asleep on a condition, at a port that nobody serves, stopped, at Send or at Receive in a
# talk whose other side has halted; and looping, which only a hold keeps from moving. Behind it stands what the other side does, where there is one.
WAITS = {
    "mutex": (call(21, r1=239) + "halt", None),
    "condition": (call(25, r1=237, r2=238) + "halt", None),
    "port": (call(32, r1=236) + "halt", None),
    "stopped": ("halt", None),
    "send": (call(33, r1=236, r3=1) + "halt", call(48, r1=235) + "halt"),
    "receive": (call(32, r1=236) + "halt", call(49, r1=235, r4=32, r5=1) + "halt"),
    "held": (SHORT, None),
}
# How the thread of the root holds: what the crowd lies in, another space, and that again and again.
HOLDS_CROWD, HOLDS_OTHER = call(13, r1=256, r2=200), call(13, r1=256, r2=201)
HOLDS_AND_RELEASES = "next: " + call(13, r1=256, r2=201) + call(14, r1=256, r2=201) + "jmp next"


def crowd(budget, kind=None, number=10_000, begins="", loops=LOOP):
    """A thread in the root that does the one and then loops over the other, beside a crowd in the spaces beneath slot 200. In slot 201 lies a space too."""
    scene = Scene(budget).space("/", begins + loops).object("/0", "thread").space("/200").space("/201")
    for space in range(number // IN_SPACE if kind else 0):
        gather(scene, f"/200/{space}", kind)
    return scene


def gather(scene, path, kind):
    """A space with its part of a crowd."""
    program, other = WAITS[kind]
    scene.space(path, program if other is None else f"{program}\n{other}")
    scene.object(f"{path}/239", "mutex", locked=True).object(f"{path}/238", "mutex").object(f"{path}/237", "cond")
    scene.object(f"{path}/235", "portset").object(f"{path}/236", "port", set=235)
    for thread in range(IN_SPACE):
        is_other = other is not None and thread % 2 == 1
        keys = {"entry": program.count("\n") + 1} if is_other else {"stops": 1} if kind == "stopped" else {}
        scene.object(f"{path}/{thread}", "thread", **keys)


def clients(number):
    """So many threads that connect to one server, which takes one after the other."""
    scene = Scene(1_000_000).space("/", "next: " + call(48, r1=8) + call(55) + "jmp next")
    scene.object("/0", "thread").object("/8", "portset").object("/9", "port", set=8)
    for first in range(0, number, IN_SPACE):
        path = f"/{10 + first // IN_SPACE}"
        scene.space(path, call(32, r1=239) + "halt").object(f"{path}/239", "reference", to="/9")
        for thread in range(min(IN_SPACE, number - first)):
            scene.object(f"{path}/{thread}", "thread")
    return scene


def halting(number, budget=1):
    """So many threads whose first instruction is a halt."""
    scene = Scene(budget)
    for first in range(0, number, IN_SPACE):
        path = f"/{first // IN_SPACE}"
        scene.space(path, "halt")
        for thread in range(min(IN_SPACE, number - first)):
            scene.object(f"{path}/{thread}", "thread")
    return scene
