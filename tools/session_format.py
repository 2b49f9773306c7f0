"""The session file: its parts, its bytes, and questions 2 to 8."""

MARK = b"BRS\x00\x01"
PAIR, ATOM, SMALL = 0, 1, 2
NONE = 0xFFFFFFFF
INDEX_BITS = 26
# The code of a step and the bytes of its operand, which is a handle if it has four.
STEPS = {"add": (1, 4), "restore": (2, 2), "forget": (3, 2), "quote": (4, 4), "take": (5, 0)}
NIL = SMALL << INDEX_BITS
MAX_FILE, MAX_ATOMS, MAX_PAIRS = 65535, 1024, 1024
MAX_ATOM_BYTES, MAX_STEPS = 32768, 1024
QUESTIONS = {
    2: "Is the input at most 65,535 bytes?",
    3: "Does the file begin with the mark and version 1?",
    4: "Does the field end inside the file?",
    5: "At most 1,024 atoms, 1,024 pairs, 32,768 atom bytes so far, 1,024 steps?",
    6: "Is this atom one that fits_in_small_atom turns down?",
    7: "Does the handle name a listed atom, a small atom, or a pair listed earlier "
    "(for the sentinel and steps: any listed pair; the sentinel may be ffffffff)?",
    8: "Is the step code known?",
}


def handle(kind, index):
    return kind << INDEX_BITS | index


def kind(h):
    return h >> INDEX_BITS


def index(h):
    return h & ((1 << INDEX_BITS) - 1)


def number_bytes(value):
    """The shortest bytes of a whole number, two's complement; none for 0."""
    if value == 0:
        return b""
    length = 1
    while not -(1 << 8 * length - 1) <= value < 1 << 8 * length - 1:
        length += 1
    return value.to_bytes(length, "big", signed=True)


def small_value(atom):
    """The value of an atom that fits in a small one, or None."""
    value = int.from_bytes(atom, "big", signed=True)
    if 0 <= value < 1 << INDEX_BITS and number_bytes(value) == atom:
        return value
    return None


class Refused(Exception):
    """The number of the first question that fails, and where."""

    def __init__(self, number, at):
        super().__init__(f"refused {number} at byte {at}")
        self.number = number

    def words(self):
        return f"question {self.number} got no: {QUESTIONS[self.number]}"


class Session:
    """atoms: bytes; pairs: two handles; sentinel: a handle or NONE; steps: a name and an operand, or a name alone."""

    def __init__(self):
        self.atoms, self.pairs, self.sentinel, self.steps = [], [], NONE, []

    def to_bytes(self):
        out = bytearray(MARK)
        out += len(self.atoms).to_bytes(2, "big")
        for atom in self.atoms:
            out += len(atom).to_bytes(2, "big") + atom
        out += len(self.pairs).to_bytes(2, "big")
        for left, right in self.pairs:
            out += left.to_bytes(4, "big") + right.to_bytes(4, "big")
        out += self.sentinel.to_bytes(4, "big")
        for name, *operands in self.steps:
            code, width = STEPS[name]
            out.append(code)
            for operand in operands:
                out += operand.to_bytes(width, "big")
        return bytes(out)


class Fields:
    """A file's fields from the left."""

    def __init__(self, file):
        self.file, self.at = file, len(MARK)

    def take(self, length):
        part = self.file[self.at : self.at + length]
        if len(part) < length:
            raise Refused(4, self.at)
        self.at += length
        return part

    def number(self, length):
        return int.from_bytes(self.take(length), "big")

    def handle(self, atoms, pairs, or_none=False):
        at = self.at
        h = self.number(4)
        named = {PAIR: index(h) < pairs, ATOM: index(h) < atoms, SMALL: True}.get(kind(h), or_none and h == NONE)
        if not named:
            raise Refused(7, at)
        return h


def count(fields, most):
    at = fields.at
    n = fields.number(2)
    if n > most:
        raise Refused(5, at)
    return n


def read_atoms(fields):
    atoms, total = [], 0
    for _ in range(count(fields, MAX_ATOMS)):
        at = fields.at
        atom = bytes(fields.take(fields.number(2)))
        total += len(atom)
        if total > MAX_ATOM_BYTES:
            raise Refused(5, at)
        if small_value(atom) is not None:
            raise Refused(6, at)
        atoms.append(atom)
    return atoms


def read_step(fields, session):
    at = fields.at
    code = fields.number(1)
    if len(session.steps) == MAX_STEPS:
        raise Refused(5, at)
    for name, (known, width) in STEPS.items():
        if code == known and width == 4:
            return name, fields.handle(len(session.atoms), len(session.pairs))
        if code == known:
            return (name, fields.number(width)) if width else (name,)
    raise Refused(8, at)


def parse(file):
    """The session of a file that passes questions 2 to 8."""
    if len(file) > MAX_FILE:
        raise Refused(2, MAX_FILE)
    if file[: len(MARK)] != MARK:
        raise Refused(3, 0)
    fields, session = Fields(file), Session()
    session.atoms = read_atoms(fields)
    atoms = len(session.atoms)
    for i in range(count(fields, MAX_PAIRS)):
        session.pairs.append((fields.handle(atoms, i), fields.handle(atoms, i)))
    session.sentinel = fields.handle(atoms, len(session.pairs), or_none=True)
    while fields.at < len(file):
        session.steps.append(read_step(fields, session))
    return session
