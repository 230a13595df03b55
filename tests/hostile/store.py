"""The files of a store, as docs/STORE.md has them, read and written with no part of the program.

`open_store` gives the state that the two files hold, or raises what an opening reports."""

import os
import struct
from typing import NamedTuple

MAGIC = b"ASHOST01"
WIDTHS = {0: "<B", 1: "<i", 2: "<I", 3: "<q", 4: "<Q", 6: "<Q"}
NULL, OBJECT = 5, 6
SCRIPT, HOST, ARRAY = 1, 2, 3
CLASS_ELEMENTS, HOST_ELEMENTS = 5, 6
NAME_STARTS = b"ABCDEFGHIJKLMNOPQRSTUVWXYZabcdefghijklmnopqrstuvwxyz_"


class Refused(Exception):
    """An opening that is refused: the number and the name of the fault."""


DAMAGED, NO_GENERATION, OTHER_INTERFACE = "503 Damaged", "501 NoGeneration", "504 OtherInterface"
POOL_SHORT, RESTORE_REFUSED = "505 PoolShort", "506 RestoreRefused"


class Word(NamedTuple):
    tag: int
    value: int = 0

    def __str__(self):
        named = {0: ("false", "true")[self.value & 1], NULL: "null", OBJECT: f"object {self.value}"}
        return named.get(self.tag, str(self.value))


class Module(NamedTuple):
    source: bytes
    values: tuple


class Object(NamedTuple):
    """`of` has the module's name and the class of a script object; the kind of a host object; what the elements of
    an array are, and then the module's name and the class, or the kind. `holds` has words, or the state of a host
    object."""

    tag: int
    of: tuple
    holds: object

    def words(self):
        return () if self.tag == HOST else self.holds


class State(NamedTuple):
    seq: int
    last: int
    services: tuple
    modules: dict
    objects: dict


def need(holds):
    if not holds:
        raise Refused(DAMAGED)


# Reading


class Reader:
    """Bytes, and how far they are read. What is too short, too much or out of order is damage."""

    def __init__(self, data):
        self.data, self.at = data, 0

    def take(self, size):
        need(size <= len(self.data) - self.at)
        self.at += size
        return self.data[self.at - size : self.at]

    def number(self, form):
        return struct.unpack(form, self.take(struct.calcsize(form)))[0]

    def bytes(self, form, most):
        size = self.number(form)
        need(size <= most)
        return self.take(size)

    def list(self, form, most, item):
        size = self.number(form)
        need(size <= most)
        return [item() for _ in range(size)]

    def ascending(self, form, most, item):
        """Items by ascending first parts."""
        items = self.list(form, most, item)
        need(all(it[0] < after[0] for it, after in zip(items, items[1:])))
        return items

    def word(self):
        tag = self.number("<B")
        need(tag <= OBJECT)
        value = self.number(WIDTHS[tag]) if tag != NULL else 0
        need(tag != 0 or value <= 1)
        return Word(tag, value)

    def name(self):
        name = self.bytes("<B", 64)
        need(name and name[0] in NAME_STARTS and all(it in NAME_STARTS + b"0123456789" for it in name))
        return name

    def source(self):
        return self.bytes("<I", 65536)

    def service(self):
        """The kind of a service, or its index, and its state."""
        return self.number("<H"), self.bytes("<H", 1024)

    def class_of(self, names):
        """The name of a class's module and the index of the class. A module that is not there has no name: that breaks a
        rule of the state."""
        index, of = self.number("<B"), self.number("<H")
        return names[index] if index < len(names) else b"", of

    def object(self, version, names):
        """An object by its number, where modules have these names."""
        number, tag = self.number("<Q"), self.number("<B")
        need(tag in (SCRIPT, HOST) or (tag == ARRAY and version == 2))
        if tag == SCRIPT:
            return number, Object(tag, self.class_of(names), tuple(self.list("<B", 32, self.word)))
        if tag == HOST:
            return number, Object(tag, (self.number("<H"),), self.bytes("<H", 1024))
        of = (self.number("<B"),)
        need(of[0] <= HOST_ELEMENTS)
        if of[0] == CLASS_ELEMENTS:
            of += self.class_of(names)
        if of[0] == HOST_ELEMENTS:
            of += (self.number("<H"),)
        return number, Object(tag, of, tuple(self.list("<H", 4096, self.word)))

    def end(self):
        need(self.at == len(self.data))


def read_image(data):
    """The version, the text of what was registered, and the state of an image."""
    reader = Reader(data)
    version, text = reader.number("<H"), reader.bytes("<I", 1 << 20)
    need(version in (1, 2) and is_utf8(text))
    seq, last = reader.number("<Q"), reader.number("<Q")
    services = tuple(reader.list("<H", 16, reader.service))
    read_module = lambda: (reader.name(), reader.source(), tuple(reader.list("<H", 256, reader.word)))
    modules = {name: Module(*rest) for name, *rest in reader.ascending("<B", 16, read_module)}
    objects = dict(reader.ascending("<I", 4096, lambda: reader.object(version, sorted(modules))))
    reader.end()
    state = State(seq, last, services, modules, objects)
    check_rules(state)
    return version, text, state


def is_utf8(text):
    try:
        return bool(text.decode()) or True
    except UnicodeDecodeError:
        return False


def after_deltas(version, before, data):
    """The states to which the deltas of a batch lead, one after the other."""
    reader, found = Reader(data), [before]
    count = reader.number("<B")
    need(version == 2 and 1 <= count <= 16)
    for _ in range(count):
        found.append(after_delta(version, found[-1], reader))
    reader.end()
    return found[1:]


def after_delta(version, before, reader):
    """The state to which the next delta leads."""
    seq, last = reader.number("<Q"), reader.number("<Q")
    services = list(before.services)
    for index, state in reader.ascending("<H", 16, reader.service):
        need(index < len(services))
        services[index] = (services[index][0], state)
    modules = after_change(reader, dict(before.modules))
    gone = reader.ascending("<I", 1 << 32, lambda: (reader.number("<Q"),))
    put = reader.ascending("<I", 4096, lambda: reader.object(version, sorted(modules)))
    gone = {number for number, in gone}
    need(not gone & {number for number, _ in put})
    objects = {number: it for number, it in before.objects.items() if number not in gone}
    objects.update(put)
    return State(seq, last, tuple(services), modules, dict(sorted(objects.items())))


def after_change(reader, modules):
    """The modules after what a delta says became of them."""
    change = reader.number("<B")
    need(change <= 3)
    if change == 0:
        return modules
    name = reader.name()
    source = reader.source() if change == 1 else modules[name].source if name in modules else b""
    if change == 2:
        modules.pop(name, None)
        return modules
    values = reader.ascending("<H", 256, lambda: (reader.number("<H"), reader.word()))
    held = dict(enumerate(modules[name].values)) if change == 3 and name in modules else {}
    need(change == 1 and [it for it, _ in values] == list(range(len(values))) or all(it in held for it, _ in values))
    need(change == 1 or name in modules)
    held.update(values)
    return {**modules, name: Module(source, tuple(held[it] for it in sorted(held)))}


def check_rules(state):
    """What holds of a state over more than one field."""
    objects = state.objects
    need(len(state.modules) <= 16 and len(objects) <= 4096)
    need(all(0 < number <= state.last for number in objects))
    for it in objects.values():
        owner = it.of[0] if it.tag == SCRIPT else it.of[1] if it.tag == ARRAY and it.of[0] == CLASS_ELEMENTS else None
        need(owner is None or owner in state.modules)
        need(it.tag != ARRAY or it.of[0] >= CLASS_ELEMENTS or all(word.tag == it.of[0] for word in it.holds))
        need(all(number in objects for number in handles(it.words())))
    roots = [number for module in state.modules.values() for number in handles(module.values)]
    need(all(number in objects for number in roots))
    reached, found = set(), set(roots)
    while found:
        reached |= found
        found = {it for number in found for it in handles(objects[number].words())} - reached
    need(len(reached) == len(objects))


def handles(words):
    return [word.value for word in words if word.tag == OBJECT]


def count(state, number):
    """How many globals, fields and elements are handles to an object."""
    held = [module.values for module in state.modules.values()] + [it.words() for it in state.objects.values()]
    return sum(words.count(Word(OBJECT, number)) for words in held)


# Files


def header(data):
    """The generation of an open file; none if it is closed."""
    if len(data) < 2 or data[0] != 1:
        return None
    need(data[1:9] == MAGIC and len(data) >= 17)
    return struct.unpack("<Q", data[9:17])[0]


def current(files):
    """The bytes of the current file."""
    generations = [header(it) for it in files]
    if generations == [None, None]:
        raise Refused(NO_GENERATION)
    need(generations[0] != generations[1])
    return files[generations[1] is not None and (generations[0] is None or generations[1] > generations[0])]


def contents(files):
    """The image and the bodies of the records of the current file."""
    reader = Reader(current(files))
    reader.take(17)
    image, bodies = reader.bytes("<I", 1 << 32), []
    while reader.number("<B") == 1:
        bodies.append(reader.bytes("<I", 1 << 32))
        need(reader.at < len(reader.data))
    return image, bodies


def states(files):
    """The version, the text and the states of the two files, from the image on; each state after the first may
    break the rules, except for the last."""
    image, bodies = contents(files)
    version, text, state = read_image(image)
    found = [state]
    for body in bodies:
        found += states_after(version, text, found[-1], body)
    check_rules(found[-1])
    return version, text, found


def states_after(version, text, before, body):
    """The states to which the body of a record leads: those after each request of a batch, and else one."""
    tag = body[:1]
    need(tag in (b"\1", b"\2", b"\3"))
    if tag == b"\3":
        return after_deltas(version, before, body[1:])
    if tag == b"\2":
        reader = Reader(body[1:])
        after = after_delta(version, before, reader)
        reader.end()
        return [after]
    other = read_image(body[1:])
    need(other[:2] == (version, text))
    return [other[2]]


def read_files(folder):
    return tuple(read_file(f"{folder}/{name}") for name in ("ash.a", "ash.b"))


def read_file(path):
    with open(path, "rb") as file:
        return file.read()


def write_files(folder, files):
    os.makedirs(folder, exist_ok=True)
    for name, data in zip(("ash.a", "ash.b"), files):
        with open(f"{folder}/{name}", "wb") as file:
            file.write(data)


# Writing


def number_of(form, value):
    return struct.pack(form, value)


def bytes_with(form, data):
    return struct.pack(form, len(data)) + data


def list_with(form, items):
    return struct.pack(form, len(items)) + b"".join(items)


def word_bytes(word):
    return bytes([word.tag]) + (struct.pack(WIDTHS[word.tag], word.value) if word.tag in WIDTHS else b"")


def object_bytes(number, it, names):
    data = struct.pack("<QB", number, it.tag)
    if it.tag == SCRIPT:
        return data + struct.pack("<BH", names.index(it.of[0]), it.of[1]) + list_with("<B", [*map(word_bytes, it.holds)])
    if it.tag == HOST:
        return data + struct.pack("<H", *it.of) + bytes_with("<H", it.holds)
    data += bytes([it.of[0]])
    if it.of[0] == CLASS_ELEMENTS:
        data += struct.pack("<BH", names.index(it.of[1]), it.of[2])
    if it.of[0] == HOST_ELEMENTS:
        data += struct.pack("<H", it.of[1])
    return data + list_with("<H", [*map(word_bytes, it.holds)])


def image_bytes(version, text, state):
    """The image of a state."""
    names = sorted(state.modules)
    service = lambda it: struct.pack("<H", it[0]) + bytes_with("<H", it[1])
    module = lambda name, it: bytes_with("<B", name) + bytes_with("<I", it.source) + list_with("<H", [*map(word_bytes, it.values)])
    return b"".join(
        [
            struct.pack("<H", version) + bytes_with("<I", text) + struct.pack("<QQ", state.seq, state.last),
            list_with("<H", [service(it) for it in state.services]),
            list_with("<B", [module(name, state.modules[name]) for name in names]),
            list_with("<I", [object_bytes(number, it, names) for number, it in sorted(state.objects.items())]),
        ]
    )


def delta_bytes(seq, change=b"\0", rest=b"\0" * 8):
    """A delta of what happens to a module, and to objects."""
    return struct.pack("<QQH", seq, 0, 0) + change + rest


def added(name, source):
    return b"\1" + bytes_with("<B", name) + bytes_with("<I", source) + b"\0\0"


def removed(name):
    return b"\2" + bytes_with("<B", name)


def body_of_batch(deltas, count=None):
    """The body of the record of a batch, with its count or another one."""
    return bytes([3, len(deltas) if count is None else count]) + b"".join(deltas)


def file_bytes(generation, image, bodies=()):
    """The file of a generation."""
    data = b"\1" + MAGIC + struct.pack("<Q", generation) + bytes_with("<I", image)
    return data + b"".join(b"\1" + bytes_with("<I", body) for body in bodies) + b"\0"
