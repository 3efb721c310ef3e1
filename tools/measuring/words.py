"""Scenarios of words to native servers. The thread that sends them halts at their end."""
from measuring.scenes import SLOTS, Scene, call

# The data of a program begin at this address, its second page.
DATA = 64


def with_words(program, number):
    """A program that has so many words of six digits from its second page on, where the label `data` stands."""
    lines = len(program.splitlines())
    return program + "word 0\n" * (DATA - lines) + "data:\n" + "\n".join(f"word {100_003 + 37 * at}" for at in range(number))


def sent(words, rule, in_one=6_400):
    """So many words to a native server, by calls of many words in one talk. A stage takes 64 of them."""
    program = f"set r10, {words // in_one}\n" + call(32, r1=1) + "next: " + call(37, r2="data", r3=in_one) + "addi r10, r10, -1\njnz r10, next\nhalt\n"
    scene = Scene(1_000_000).space("/1", with_words(program, in_one)).object("/1/0", "thread").object("/1/1", "reference", to="/9")
    return scene.server("/9", rule, **({"alias": "a"} if rule == "console" else {}))


def talks(number, idle):
    """So many messages of 64 words to a console, each with a talk of its own, beside idle consoles."""
    program = f"set r10, {number}\nnext: " + call(33, r1=1, r2="data", r3=64) + call(39) + "addi r10, r10, -1\njnz r10, next\nhalt\n"
    scene = Scene(1_000_000).space("/1", with_words(program, 64)).object("/1/0", "thread").object("/1/1", "reference", to="/1/9")
    scene.server("/1/9", "console", alias="a")
    for at in range(idle):
        path = f"/{2 + at // SLOTS}"
        if at % SLOTS == 0:
            scene.space(path)
        scene.server(f"{path}/{at % SLOTS}", "console", alias=f"c{at}")
    return scene
