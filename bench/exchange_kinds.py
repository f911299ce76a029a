"""The images that exchange.py compares: `all_cases(options)` makes them, and yields them a list at a time."""

from dataclasses import dataclass, field
import itertools
import os
import random
import shutil
import subprocess
import zlib

from exchange_operations import (ANY, Limits, a_few, answers_of, beside_a_log, carried, carry_attributes, carry_out, every_file, logging, mixed, scripted,
                                 some_changes, some_put, some_tree, told, with_attributes)
import image_reader
from littlefs_code import EMPTY, NO_SPACE, NOT_FOUND, TOO_LONG, Driver, shown, summed
from profiles import ALSO_2_1, DEFAULT, Profile

GEOMETRIES = [(1024, 16, 64), (1024, 128, 64), (1536, 64, 48), (2048, 64, 128), (4096, 256, 64), (4096, 512, 48)]
ROOMY = [(1024, 128, 256), (1024, 16, 256), (2048, 64, 128), (4096, 256, 64), (4096, 512, 64)]
WORN = (4096, 256, 64)
CYCLES = [3, 20, 100, 500]
EVERY = 250  # operations from an unmount to the next
PAIR_CYCLES = [3, 7, 101]
MOVED = [(1024, 128, 256), (2048, 64, 128), (4096, 256, 64)]  # devices of sessions whose pairs move
POINTS = 6  # images of each such session
GONE_ON = 6
NO_ROOM = "refused NoSpace 28"  # by a session
TURNS = 3  # by littlefs and by a session
# the limits with which littlefs was built: of a name alone, and of all three
LIMITS = [Profile(name_max=32), Profile(name_max=64, file_max=1000000, attr_max=64)]
CACHES = [64, 128, 256]
FULL = [(1024, 128, 32), (1024, 16, 48), (2048, 64, 24), (4096, 256, 16), (8192, 256, 12)]
CACHED = [(1024, 128, 256), (1024, 16, 256), (2048, 64, 160), (4096, 256, 128), (4096, 512, 128), (8192, 256, 128)]


@dataclass(frozen=True)
class Firmware:
    """A build of littlefs, and the images that are made for it."""

    name: str  # its kinds begin with it
    code: str
    profile: Profile = DEFAULT  # by which images are made and changed here
    limits: Limits = ANY
    changes: callable = some_changes  # by littlefs
    geometries: tuple = tuple(ROOMY)


@dataclass
class Case:
    """An image, and what is known of it."""

    kind: str
    image: str
    geometry: tuple
    tree: dict = None  # what it has to show; None: what littlefs shows
    plain: dict = None  # the same with the files' bytes
    attributes: dict = field(default_factory=dict)  # of each path that has some
    cycles: int = -1
    cut: bool = False  # a loss of power may have cut an operation
    code: str = None  # littlefs's own code that shows it; None: that which is set to version 2.0
    newer: bool = False  # littlefs had it in its default version
    written: bool = False  # and has written to it
    missing: set = field(default_factory=set)  # paths that littlefs didn't find when it was to change them
    wrong: list = field(default_factory=list)  # operations that it refused otherwise


def known(kind, image, geometry, plain, **more):
    return Case(kind, image, geometry, summed(plain), plain, **more)


def all_cases(options):
    """Lists of images; those of a list are there until the next one is asked for."""
    for group, make in GROUPS.items():
        if group in options.only:
            yield from make(options)


# Any operations


def at_random(options):
    yield from with_changed(options, by_littlefs(options))
    if not options.script:
        return
    yield from with_changed(options, by_sessions(options, "by sessions", False))
    yield from with_changed(options, by_sessions(options, "by stopped sessions", True))


def begin(options, kind, number, geometries):
    """What the image of a kind and number begins with: its own random numbers, a geometry, and a file's name."""
    rnd = random.Random(f"{options.seed}/{kind}/{number}")
    return rnd, rnd.choice(geometries), f"{options.room}/{options.seed}_{kind.replace(' ', '_').replace(',', '')}_{number}.img"


def by_littlefs(options):
    def made(number):
        rnd, geometry, image = begin(options, "by littlefs", number, GEOMETRIES)
        cycles = rnd.choice([-1, -1, *CYCLES])
        subprocess.run([options.code, "make", image, *map(str, geometry), str(cycles), str(rnd.getrandbits(32))], check=True)
        return Case("by littlefs", image, geometry, cycles=cycles, cut=True)

    return options.each(made, range(options.count))


def with_changed(options, cases):
    """The images, and then copies of them after littlefs changed them."""
    change = lambda case: changed_at_random(case, case.code or options.code, f"{case.kind}, changed", newer=case.newer, written=case.written)
    changed = options.each(change, cases)
    yield cases
    yield changed


def changed_at_random(case, code, kind, **more):
    image, seed = case.image.replace(".img", "_changed.img"), str(zlib.crc32(os.path.basename(case.image).encode()))
    shutil.copy(case.image, image)
    subprocess.run([code, "change", image, *map(str, case.geometry[:2]), str(case.cycles), seed], check=True)
    return Case(kind, image, case.geometry, cycles=case.cycles, cut=True, code=code, **more)


def some_session(rnd, geometry):
    """Operations of a session that makes an image."""
    folders = [""]
    some_path = lambda: f"{rnd.choice(folders)}/{''.join(rnd.choices('abcdef', k=rnd.choice([1, 2, 2, 2, 30])))}"
    for _ in range(rnd.randrange(120)):
        kind = rnd.randrange(10)
        if kind == 0 and len(folders) < 8:
            folders.append(some_path())
            yield f"mkdir {folders[-1]}"
        elif kind < 6:
            yield f"open {some_path()} {rnd.choice(['102', '502', '902', '2'])}"
            for _ in range(rnd.randrange(3)):
                size = rnd.choice([1, rnd.randrange(1, 200), rnd.randrange(1, 4 * geometry[0])])
                yield from [f"seek 0 {rnd.randrange(2 * size)}"] * rnd.randrange(2) + [f"write 0 *{size}:{rnd.choice('vwxyz')}"]
            yield from [f"truncate 0 {rnd.randrange(3000)}"] * rnd.randrange(2) + ["close 0"]
        elif kind == 6:
            yield f"remove {some_path()}"
        elif kind == 7:
            yield f"rename {some_path()} {some_path()}"
        elif kind == 8:
            yield f"set-attr {some_path()} {rnd.randrange(4)} *{rnd.randrange(1, 60)}:q"
        else:
            yield f"remove-attr {some_path()} {rnd.randrange(4)}"


def by_sessions(options, kind, stops):
    def made(number):
        rnd, geometry, image = begin(options, kind, number, GEOMETRIES)
        script = ["fresh %d %d %d" % geometry + rnd.choice(["", " keep"]), *some_session(rnd, geometry)]
        if stops:
            stop = rnd.choice(["program", "erase"]), 1 + rnd.randrange(60), rnd.choice(["", " torn 1", f" torn {rnd.randrange(2000)}", " whole"])
            script += ["mount %s %d stop%s" % stop, *some_session(rnd, geometry)]
        answers_of(options.script, [*script, "unmount", f"save {image}"])
        return Case(kind, image, geometry, cut=stops)

    return options.each(made, range(options.count))


# Names of which one is the beginning of another


def names(options):
    yield from for_firmware(options, Firmware("names", options.code), [made_by_littlefs, made_by_tool, made_by_sessions])


def limits(options):
    """For builds of littlefs with other limits, which mount no image with larger ones."""
    for profile in LIMITS:
        code = options.build(f"exchange_{profile.name_max}", name_max=profile.name_max, file_max=profile.file_max, attr_max=profile.attr_max)
        firmware = Firmware(f"name max {profile.name_max},", code, profile, Limits(longest=profile.name_max))
        yield from for_firmware(options, firmware, [made_by_littlefs, made_by_tool, made_by_sessions])


def caches(options):
    """For builds of littlefs with a small cache, which change no file that is inline and longer than it."""
    for cache in CACHES:
        code = options.build(f"exchange_cache_{cache}", cache=cache)
        geometries = tuple(it for it in CACHED if it[0] // 8 >= cache)
        firmware = Firmware(f"cache {cache},", code, Profile(inline_max=cache), Limits(near=cache, files=25), every_file, geometries)
        yield from for_firmware(options, firmware, [made_by_tool, made_by_sessions])


def for_firmware(options, firmware, makes):
    for make in makes if options.script else [it for it in makes if it == made_by_littlefs]:
        cases = options.each(lambda number: make(options, number, firmware), range(options.count))
        by_session = list(filter(None, options.each(lambda case: changed_by_session(options, case, firmware), cases if options.script else [])))
        later = options.each(lambda case: changed_by_littlefs(case, "then by littlefs", firmware), by_session)
        changed = options.each(lambda case: changed_by_littlefs(case, "changed by littlefs", firmware), cases)
        yield from [cases, changed, by_session, later]


def made_by_littlefs(options, number, firmware):
    kind = f"{firmware.name} by littlefs"
    rnd, geometry, image = begin(options, kind, number, firmware.geometries)
    case, plain = known(kind, image, geometry, {}, code=firmware.code), {b"": None}
    driver = Driver(firmware.code, image, geometry, fresh=True)
    tell(driver, case, some_tree(rnd, geometry[0], firmware.limits), plain)
    driver.end(image)
    case.plain, case.tree = plain, summed(plain)
    return case


def tell(driver, case, operations, plain):
    """Has littlefs carry out operations, and the plain tree with them."""
    wanted = []
    for operation in operations:
        wanted.append((operation, answer_to(operation, plain)))
        carry_out(plain, operation)
    for (operation, right), answer in zip(wanted, driver.tell_all([told(operation) for operation, _ in wanted])):
        if answer == NOT_FOUND:
            case.missing.add(operation[1])
        elif answer != right:
            case.wrong.append(f"{operation[:2]} is answered with {answer}")


def answer_to(operation, plain):
    """What littlefs has to answer: 0, or the checksum of a file that is read."""
    return summed({b"": plain[operation[1]]})[b""][0][1] if operation[0] == "read" else 0


def made_by_tool(options, number, firmware):
    """By `mklittlefs -c` of a folder."""
    kind = f"{firmware.name} by -c"
    rnd, geometry, image = begin(options, kind, number, firmware.geometries)
    plain, folder = {b"": None}, image.replace(".img", "_folder")
    for operation in some_tree(rnd, geometry[0], firmware.limits):
        carry_out(plain, operation)
    for path, node in plain.items():
        if node is None:
            os.mkdir(folder.encode() + path)
        else:
            with open(folder.encode() + path, "wb") as it:
                it.write(node)
    sizes = ["-b", str(geometry[0]), "-p", str(geometry[1]), "-s", str(geometry[0] * geometry[2])]
    subprocess.run([options.tool, "-c", folder, *sizes, *firmware.profile.options(), image], check=True)
    shutil.rmtree(folder)
    return known(kind, image, geometry, plain, code=firmware.code)


def made_by_sessions(options, number, firmware):
    kind = f"{firmware.name} by sessions"
    rnd, geometry, image = begin(options, kind, number, firmware.geometries)
    plain, script = {b"": None}, [*opening(firmware.profile), "fresh %d %d %d" % geometry]
    for operation in some_tree(rnd, geometry[0], firmware.limits):
        carry_out(plain, operation)
        script += scripted(operation)
    answers = answers_of(options.script, [*script, "unmount", f"save {image}"])
    return known(kind, image, geometry, plain, wrong=refusals(answers), code=firmware.code)


def opening(profile):
    """The line for a profile, where it isn't the one that a script has without it."""
    return [] if profile == DEFAULT else [profile.line()]


def refusals(answers):
    return [f"a session answers {answer}" for answer in answers if answer.startswith(("refused", "error"))][:1]


def changed_by_littlefs(case, how, firmware):
    """A copy of the image after littlefs changed it: files written anew, added to, renamed onto others, removed, made."""
    rnd, image = random.Random(os.path.basename(case.image) + how), case.image.replace(".img", f"_{how.replace(' ', '_')}.img")
    shutil.copy(case.image, image)
    plain, changed = dict(case.plain), known(f"{case.kind}, {how}", image, case.geometry, {}, code=firmware.code)
    driver = Driver(firmware.code, image, case.geometry)
    tell(driver, changed, firmware.changes(rnd, dict(plain), case.geometry[0], firmware.limits), plain)
    answer = driver.tell(told(("mkdir", too_long(firmware.limits))))
    if answer != TOO_LONG:
        changed.wrong.append(f"a name that is too long is answered with {answer}")
    driver.end(image)
    changed.plain, changed.tree = plain, summed(plain)
    return changed


def too_long(limits):
    return b"/" + b"n" * (limits.longest + 1)


def changed_by_session(options, case, firmware):
    """A copy of the image after a session changed it, or none where it isn't mounted."""
    rnd, image = random.Random(os.path.basename(case.image)), case.image.replace(".img", "_by_session.img")
    plain, script = dict(case.plain), [*opening(firmware.profile), f"image {case.geometry[0]} {case.geometry[1]} {case.image}"]
    mounted = len(script) - 1
    for operation in some_changes(rnd, plain, case.geometry[0], firmware.limits):
        script += scripted(operation)
    long_name = f"mkdir {too_long(firmware.limits).decode()}"
    answers = answers_of(options.script, [*script, long_name, "unmount", f"save {image}"])
    if answers[mounted] != "done":
        return None
    refused = answers.pop(len(script))
    wrong = refusals(answers) + [f"a session answers {refused} to a name that is too long"] * (refused != "refused NameTooLong 36")
    return known(f"{case.kind}, changed by a session", image, case.geometry, plain, wrong=wrong, code=firmware.code)


# Devices that are full


def full(options):
    """Small devices that sessions fill, and littlefs with a small cache behind them: what has no room changes nothing."""
    cache = CACHES[0]
    code = options.build("exchange_full", cache=cache)
    firmware = Firmware("full,", code, Profile(inline_max=cache), Limits(near=cache, files=25), every_file, tuple(FULL))
    made = options.each(lambda number: filled_by_session(options, number, firmware), range(options.count if options.script else 0))
    yield from [made, options.each(lambda case: changed_when_full(case, firmware), made)]


def long_files(rnd, path, block_size):
    """More of them than there is room for, each of at least two blocks."""
    return [("put", path + b"%d" % number, rnd.randrange(block_size + 1, 2 * block_size), rnd.choice("uvwxyz")) for number in range(40)]


def filled_by_session(options, number, firmware):
    kind = f"{firmware.name} by sessions"
    rnd, geometry, image = begin(options, kind, number, firmware.geometries)
    operations = some_tree(rnd, geometry[0], firmware.limits) + long_files(rnd, b"/full", geometry[0])
    script = [*opening(firmware.profile), "fresh %d %d %d" % geometry]
    at, plain, wrong = len(script), {b"": None}, []
    script += [line for operation in operations for line in scripted(operation)]
    answers = answers_of(options.script, [*script, "unmount", f"save {image}"])
    for operation in operations:
        given, at = answers[at : at + len(scripted(operation))], at + len(scripted(operation))
        if not is_followed(plain, operation, given):
            wrong.append(f"a session answers {' and '.join(given)} to {operation[:2]}")
    if NO_ROOM not in answers:
        wrong.append("there is room for all")
    return known(kind, image, geometry, plain, wrong=wrong, code=firmware.code)


def is_followed(plain, operation, answers):
    """Changes the plain tree as a session did. Whether it may answer so: what has no room changes nothing, but a new file may be empty."""
    not_open, path = ["refused BadFile 9"] * (len(answers) - 1), operation[1]
    if path.rpartition(b"/")[0] not in plain:
        return answers == ["refused NoEnt 2", *not_open]
    if NO_ROOM not in answers:
        carry_out(plain, operation)
        return not refusals(answers)
    if answers[0] == NO_ROOM:
        return answers[1:] == not_open
    plain[path] = b""
    return answers[1:] == [NO_ROOM, "done"]


def changed_when_full(case, firmware):
    """A copy of the image after littlefs changed each file, and made more, as far as there was room."""
    rnd, image = random.Random(os.path.basename(case.image) + "full"), case.image.replace(".img", "_changed.img")
    shutil.copy(case.image, image)
    plain, changed = dict(case.plain), known(f"{case.kind}, changed by littlefs", image, case.geometry, {}, code=firmware.code)
    operations = list(every_file(rnd, dict(plain), case.geometry[0], firmware.limits))
    operations += [it for put in long_files(rnd, b"/more", case.geometry[0]) for it in (put, ("read", put[1]))]
    driver = Driver(firmware.code, image, case.geometry)
    answers = driver.tell_all([told(operation) for operation in operations])
    changed.wrong += [f"{it[:2]} is answered with {answer}" for it, answer in zip(operations, answers) if not is_done_or_full(plain, it, answer)]
    if not {NO_SPACE, TOO_LONG} & set(answers):
        changed.wrong.append("there is room for all")
    driver.end(image)
    changed.plain, changed.tree = plain, summed(plain)
    return changed


def is_done_or_full(plain, operation, answer):
    """The same of littlefs. Of a new file whose name has no room it says that the name is too long."""
    what, path = operation[:2]
    if path not in plain:
        if answer == 0 and what == "put":
            carry_out(plain, operation)
        elif answer == EMPTY and what == "read":
            plain[path] = b""
        return answer in ((0, NO_SPACE, TOO_LONG) if what == "put" else (EMPTY, NOT_FOUND))
    if answer == answer_to(operation, plain):
        carry_out(plain, operation)
        return True
    return what != "read" and answer == NO_SPACE


# Long use, with pairs that move as they wear


def long_use(options):
    for what, first, operate in ("a logger", beside_a_log, logging), ("mixed", a_few, mixed):
        for cycles in CYCLES:
            yield from history(options, what, first, operate, cycles)


def history(options, what, first, operate, cycles):
    """Images at each unmount, copies of them that were cut short behind it, and of these when littlefs had gone on."""
    rnd, _, image = begin(options, f"long use, {what}", cycles, [WORN])
    driver, plain = Driver(options.code, image, WORN, fresh=True, cycles=cycles), {b"": None}
    case = Case(f"{what}, block_cycles {cycles}", image, WORN, cycles=cycles)
    tell(driver, case, first(rnd), plain)
    for number in range(options.operations):
        tell(driver, case, [operate(rnd, plain, WORN)], plain)
        if number % EVERY == EVERY - 1:
            case.image = image.replace(".img", f"_{number}.img")
            driver.tell(f"save {case.image}")
            case.plain, case.tree = dict(plain), summed(plain)
            yield [case, *cut_short(options, rnd, case, operate)]
            case = Case(case.kind, image, WORN, cycles=cycles)
    driver.end()


def cut_short(options, rnd, case, operate):
    """A copy of the image whose power went in the middle of an operation, and one more when littlefs had gone on with it."""
    cut = Case(f"{case.kind}, cut", case.image.replace(".img", "_cut.img"), WORN, cycles=case.cycles, cut=True)
    shutil.copy(case.image, cut.image)
    driver, plain = Driver(options.code, cut.image, WORN, cycles=case.cycles), dict(case.plain)
    driver.tell(f"cut {rnd.randrange(rnd.choice([10, 100]))}")
    for _ in range(100):
        before, operation = dict(plain), operate(rnd, plain, WORN)
        if driver.tell(told(operation)):
            break
        carry_out(plain, operation)
    driver.end(cut.image)
    yield cut
    standing = left_by(options.code, cut, before, operation)
    if standing is not None:
        yield gone_on(options, rnd, cut, operate, standing)


def left_by(code, cut, before, operation, ended=False):
    """Which plain tree an operation that was cut short left, if any of those that it may."""
    after, begun, found = dict(before), dict(before), shown(code, cut.image, cut.geometry, ended)
    carry_out(after, operation)
    begun[operation[1]] = before.get(operation[1], b"")  # a new file, without its bytes yet
    return next((plain for plain in (before, after, begun) if found and found.tree == summed(plain)), None)


def gone_on(options, rnd, cut, operate, plain):
    case = known(f"{cut.kind}, gone on", cut.image.replace("_cut.img", "_gone_on.img"), WORN, {}, cycles=cut.cycles)
    shutil.copy(cut.image, case.image)
    driver = Driver(options.code, case.image, WORN, cycles=cut.cycles)
    tell(driver, case, (operate(rnd, plain, WORN) for _ in range(GONE_ON)), plain)
    driver.end(case.image)
    case.plain, case.tree = plain, summed(plain)
    return case


# Long use by sessions, whose pairs move as they wear


def long_sessions(options):
    """Images at points of a long use, copies of them whose device stopped in a session behind it, and copies after littlefs changed them. Then
    the latter after a session went on with them."""
    for what, first, operate in ("a logger", beside_a_log, logging), ("mixed", a_few, mixed):
        for cycles in PAIR_CYCLES if options.script else []:
            profile, kind = Profile(pair_cycles=cycles), f"{what} by sessions, pair_cycles {cycles}"
            for geometry in MOVED:
                made = session_history(options, kind, geometry, profile, first, with_attributes(operate))
                stopped = options.each(lambda case: stopped_session(options, case, profile, with_attributes(operate)), made)
                changed = options.each(lambda case: changed_in_turn(options, case, operate), made)
                gone_on = options.each(lambda case: session_gone_on(options, case, profile, with_attributes(operate)), changed)
                yield from [made, stopped, changed, gone_on]


def coming(rnd, plain, attributes, operate, geometry, operations=()):
    """These operations, and then others at random. What each changes is changed before it is given."""
    more = (operate(rnd, plain, geometry) for _ in itertools.count())
    for operation in itertools.chain(operations, more):
        carry_out(plain, operation)
        carry_attributes(attributes, operation)
        yield operation


def at_point(kind, image, geometry, plain, attributes, **more):
    """A case with what is there at this point."""
    attributes = {path: dict(kept) for path, kept in attributes.items()}
    return Case(kind, image, geometry, summed(plain, attributes), dict(plain), attributes, **more)


def session_history(options, kind, geometry, profile, first, operate):
    """The images that a session leaves, with remounts between, which finds at each that a mount is the same."""
    rnd, _, image = begin(options, f"{kind} {geometry[0]}", 0, [geometry])
    plain, attributes, cases = {b"": None}, {}, []
    script = [profile.line(), "fresh %d %d %d" % geometry]
    every = max(1, options.operations // POINTS)
    operations = coming(rnd, plain, attributes, operate, geometry, first(rnd))
    for number, operation in enumerate(itertools.islice(operations, max(POINTS, options.operations)), 1):
        script += scripted(operation) + ["remount"] * (rnd.randrange(50) == 0)
        if number % every == 0:
            cases.append(at_point(kind, image.replace(".img", f"_{number}.img"), geometry, plain, attributes))
            script += ["compare", f"save {cases[-1].image}"]
    answers = answers_of(options.script, script)
    wrong = refusals(answers) + [f"a session and its mount differ: {it}" for it in answers if it.startswith("differs")][:1]
    cases[-1].wrong += wrong + ["no pair has moved"] * (profile.pair_cycles < 100 and not has_moved_root(cases[-1]))
    return cases


def has_moved_root(case):
    """Whether the root directory begins behind the blocks 0 and 1."""
    with open(case.image, "rb") as it:
        pairs = image_reader.read_thread(image_reader.blocks_of(it.read(), case.geometry[0]))
    return len(pairs) > 1 and pairs[0].tail[0] and all(slot.kind == image_reader.SUPERBLOCK for slot in pairs[0].slots)


def stopped_session(options, case, profile, operate):
    """A copy of the image after a session whose device stopped in an operation, perhaps in the middle of a move."""
    image = case.image.replace(".img", "_stopped.img")
    rnd, plain = random.Random(os.path.basename(image)), dict(case.plain)
    attributes = {path: dict(kept) for path, kept in case.attributes.items()}
    stop = f"mount {rnd.choice(['program', 'erase'])} {1 + rnd.randrange(60)} stop{rnd.choice(['', ' torn 1', f' torn {rnd.randrange(2000)}', ' whole'])}"
    begun = [profile.line(), f"image {case.geometry[0]} {case.geometry[1]} {case.image}", "unmount", stop]
    operations = list(itertools.islice(coming(rnd, dict(plain), {}, operate, case.geometry), 120))
    answers = answers_of(options.script, begun + [line for it in operations for line in scripted(it)] + ["unmount", f"save {image}"])[len(begun) :]
    left = Case(f"{case.kind}, stopped", image, case.geometry, cut=True)
    for operation in operations:
        count = len(scripted(operation))
        if "error Io 5" in answers[:count]:
            return left_in(options, left, operation, plain, attributes)
        left.wrong += refusals(answers[:count])
        answers = answers[count:]
        carry_out(plain, operation)
        carry_attributes(attributes, operation)
    left.plain, left.tree = plain, summed(plain, attributes)
    return left


def left_in(options, left, operation, plain, attributes):
    """The case of an image that was left in an operation: the tree is that from before it or behind it, or a new file is there, empty."""
    after, its, begun = dict(plain), {path: dict(kept) for path, kept in attributes.items()}, dict(plain)
    carry_out(after, operation)
    carry_attributes(its, operation)
    begun[operation[1]] = plain.get(operation[1], b"")
    found = shown(options.code, left.image, left.geometry, ended=True)
    trees = [summed(plain, attributes), summed(after, its), summed(begun, attributes)]
    left.tree = next((tree for tree in trees if found and found.tree == tree), None)
    left.wrong += ["the image has neither of the trees"] * (left.tree is None)
    return left


def changed_in_turn(options, case, operate):
    """A copy of the image after littlefs went on with the same use, and moved pairs, too."""
    image = case.image.replace(".img", "_changed.img")
    rnd, plain = random.Random(os.path.basename(image)), dict(case.plain)
    attributes = {path: dict(kept) for path, kept in case.attributes.items()}
    shutil.copy(case.image, image)
    changed, cycles = Case(f"{case.kind}, changed by littlefs", image, case.geometry), rnd.choice([-1, 3, 100])
    driver = Driver(options.code, image, case.geometry, cycles=cycles)
    operations = (operate(rnd, plain, case.geometry) for _ in range(60))
    tell(driver, changed, carried(attributes, operations), plain)
    driver.end(image)
    changed.plain, changed.attributes, changed.tree = plain, attributes, summed(plain, attributes)
    return changed


def session_gone_on(options, case, profile, operate):
    """A copy of the image after a session went on with it."""
    image = case.image.replace(".img", "_gone_on.img")
    rnd, plain = random.Random(os.path.basename(image)), dict(case.plain)
    attributes = {path: dict(kept) for path, kept in case.attributes.items()}
    script = [profile.line(), f"image {case.geometry[0]} {case.geometry[1]} {case.image}"]
    for operation in itertools.islice(coming(rnd, plain, attributes, operate, case.geometry), 200):
        script += scripted(operation)
    wrong = refusals(answers_of(options.script, [*script, "compare", f"save {image}"]))
    return at_point(f"{case.kind}, then by sessions", image, case.geometry, plain, attributes, wrong=wrong)


# Version 2.1


def version(options):
    """Images made here, to which littlefs writes in its default version: nothing, an operation, or a few, the last perhaps cut short."""
    firmware = Firmware("names", options.code)

    def newer(number):
        made = (made_by_tool if number % 2 else made_by_sessions)(options, number, firmware)
        rnd, image = random.Random(f"{options.seed}/version/{number}"), made.image.replace(".img", "_newer.img")
        shutil.copy(made.image, image)
        case = Case("version 2.1", image, made.geometry, code=options.newest, newer=True, cut=number % 3 == 2)
        driver, plain = Driver(options.newest, image, made.geometry), dict(made.plain)
        if case.cut:
            driver.tell(f"cut {rnd.randrange(12)}")
        driver.tell_all([told(it) for it in some_changes(rnd, plain, made.geometry[0])][: [0, 1, 2, 5][number % 4]])
        driver.end(image)
        case.written = not is_same(made.image, image) and not case.cut
        case.kind += ", cut" if case.cut else ", written to" if case.written else ", mounted"
        os.unlink(made.image)
        return case

    yield options.each(newer, range(options.count if options.script else 0))


def is_same(one, other):
    with open(one, "rb") as it, open(other, "rb") as that:
        return it.read() == that.read()


def later(options):
    """Images by littlefs in its default version, and by littlefs in version 2.0 and then in that; many operations, some cut, and gone on."""
    def made(number):
        rnd, geometry, image = begin(options, "version 2.1 by littlefs", number, GEOMETRIES)
        words = [*map(str, geometry), str(rnd.choice([-1, *CYCLES])), str(rnd.getrandbits(32))]
        subprocess.run([options.newest, "make", image, *words], check=True)
        case = Case("version 2.1 by littlefs", image, geometry, cycles=int(words[3]), cut=True, code=options.newest, newer=True, written=True)
        image = image.replace(".img", "_before.img")
        words[3] = str(rnd.choice([2, 3, 20]))  # few, so that the superblock's pair moves on
        subprocess.run([options.code, "make", image, *words], check=True)
        return case, Case("version 2.0", image, geometry, cycles=int(words[3]))

    both = options.each(made, range(options.count))
    yield from with_changed(options, [case for case, _ in both])
    yield options.each(lambda both: changed_at_random(both[1], options.newest, "version 2.0 and then 2.1 by littlefs", newer=True), both)
    for _, before in both:
        os.unlink(before.image)


def turns(options):
    """Images that littlefs in its default version and sessions change in turns. The device of some sessions stops."""
    firmware = Firmware("in turns,", options.newest, limits=Limits(files=40))
    make = lambda number: (made_by_tool if number % 2 else made_by_littlefs)(options, number, firmware)
    made = options.each(make, range(options.count if options.script else 0))
    for case in made:
        case.newer = case.written = case.kind.endswith("littlefs")
    for turn in range(1, TURNS + 1):
        by_littlefs = options.each(lambda case: turn_by_littlefs(case, turn, firmware), made)
        yield made
        made = options.each(lambda case: turn_by_session(options, case, turn), by_littlefs)
        yield by_littlefs
    yield made


def turn_by_littlefs(case, turn, firmware):
    changed = changed_by_littlefs(case, f"turn {turn}", firmware)
    changed.kind, changed.newer, changed.written = f"in turns, {turn} by littlefs", True, True
    return changed


def turn_by_session(options, case, turn):
    """A copy of the image after a session changed it. It ends with an operation in which the device stops, if it stops."""
    rnd, image = random.Random(f"{os.path.basename(case.image)}/session"), case.image.replace(".img", "_session.img")
    stop = ["unmount", f"mount program {1 + rnd.randrange(12)} stop torn {rnd.randrange(1500)}"] * (rnd.random() < 0.3)
    begun = [ALSO_2_1.line(), f"image {case.geometry[0]} {case.geometry[1]} {case.image}", *stop]
    operations = list(some_changes(rnd, dict(case.plain), case.geometry[0]))
    script = begun + [line for operation in operations for line in scripted(operation)]
    answers = answers_of(options.script, [*script, "unmount", f"save {image}"])
    changed = Case(f"in turns, {turn} by a session", image, case.geometry, code=options.newest, newer=True, written=True, cut=bool(stop))
    changed.plain = followed(changed, dict(case.plain), operations, answers[len(begun) :])
    changed.wrong += [f"a session answers {answer}" for answer in answers[: len(begun)] if answer != "done"]
    changed.tree = summed(changed.plain)
    return changed


def followed(case, plain, operations, answers):
    """The plain tree behind the operations of a session: behind all of them, or what the one left in which the device stopped."""
    for operation in operations:
        count = len(scripted(operation))
        if "error Io 5" in answers[:count] and case.cut:
            standing = left_by(case.code, case, plain, operation, ended=True)
            if standing is None:
                case.wrong.append(f"{operation[:2]} left another tree")
            return plain if standing is None else standing
        case.wrong += refusals(answers[:count])
        answers = answers[count:]
        carry_out(plain, operation)
    return plain


GROUPS = {"random": at_random, "names": names, "limits": limits, "caches": caches, "full": full, "long": long_use, "sessions": long_sessions,
          "version": version, "later": later, "turns": turns}
