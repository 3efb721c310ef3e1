"""Scenarios of jobs. Each kind is a function that puts into a scenario what is saved beneath slot 1 of the root, and what lies beside it."""
from measuring.scenes import Scene


def mutexes_and_pages(scene):
    fill(scene.space("/1", pages=range(200)), "/1")


def references_and_pages(scene):
    scene.space("/1", pages=range(200)).object("/1/200", "port")
    for slot in range(100):
        scene.object(f"/1/{slot}", "mutex").object(f"/1/{100 + slot}", "reference", to="/1/200")


def leading_out(ports):
    """200 references that lead out to so many ports."""

    def put(scene):
        scene.space("/1", pages=range(200))
        for at in range(ports):
            scene.object(f"/{2 + at}", "port")
        for slot in range(200):
            scene.object(f"/1/{slot}", "reference", to=f"/{2 + slot % ports}")

    return put


def fill(scene, path):
    """200 mutexes in a space."""
    for slot in range(200):
        scene.object(f"{path}/{slot}", "mutex")


def mutexes(scene):
    fill(scene.space("/1"), "/1")


def many_mutexes(scene):
    """20,000 mutexes in a hundred spaces, and half as many beside."""
    spread(scene, "/1", 100)
    beside(scene)


def beside(scene):
    spread(scene, "/2", 50)


def spread(scene, path, spaces):
    scene.space(path)
    for space in range(spaces):
        fill(scene.space(f"{path}/{space}"), f"{path}/{space}")


def side_by_side(scene):
    scene.space("/1")
    for space in range(99):
        scene.space(f"/1/{space}")


def in_a_chain(scene):
    for level in range(1, 101):
        scene.space("/1" * level)


def many_pages(scene):
    """12,800 pages in 50 spaces."""
    scene.space("/1")
    for space in range(50):
        scene.space(f"/1/{space}", pages=range(256))


def saving(put, is_saved=True):
    """What is put there, and a checkpoint of it."""
    scene = Scene(1_000_000).space("/", nester=True)
    put(scene)
    return scene.job("checkpoint", "a") if is_saved else scene


def restoring(ports=0, put=None, is_restored=True):
    """A restore of the image a, beside ports to which it leads, and what is put there."""
    scene = Scene(1_000_000).space("/", nester=True)
    for at in range(ports):
        scene.object(f"/{2 + at}", "port")
    if put:
        put(scene)
    return scene.job("restore", "a") if is_restored else scene
