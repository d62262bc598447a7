"""The reader of tables: entries known by hand, entries as the program prints them, and broken files."""
import hashlib

import numpy as np
import pytest
from conftest import EXAMPLES

from acas_table import ENTRY, Fault, read_model, read_table


def millionths(words: str) -> int:
    """A printed value in millionths."""
    sign, digits = (-1, words[1:]) if words.startswith("-") else (1, words)
    whole, part = digits.split(".")
    return sign * (int(whole) * 10**6 + int(part))


HEADER, DIGEST = 60, 32
C_LAYER, B_LAYER = 17 * 24, 17 * 16
"""The bytes of the entries of a layer of examples/c.toml and of examples/b.toml."""
TABLES = {1: EXAMPLES / "c.acxt", 2: EXAMPLES / "c2.acxt"}
"""The same table of examples/c.toml in either version."""


def resigned(content: bytes, layer: int = C_LAYER) -> bytes:
    """The bytes of a table of version 1, or of one of version 2 whose layers have so many bytes, with the digests that belong to them."""
    if content[4] == 1:
        return content[:-32] + hashlib.sha256(content[:-32]).digest()
    before, parts = content[:HEADER], [content[:HEADER]]
    for start in range(HEADER, len(content), layer + DIGEST):
        entries = content[start : start + layer]
        before = hashlib.sha256(before + entries).digest()
        parts += [entries, before]
    return b"".join(parts)


def test_entries_known_by_hand(acas):
    """With contact of cost 1, level at the same altitude, the intruder climbing 600 ft/min: a chance of 2/3 with a second to go."""
    model = read_model(EXAMPLES / "b.toml")
    table = read_table(acas.table(EXAMPLES / "b.toml"), model)
    assert table.layers.dtype == ENTRY and ENTRY.itemsize == 17
    assert table.layers.shape == (3, 2, 2, 2, 2)
    assert table.layers[1, 0, 0, 0, 1].item() == (666667, 666666, 0)
    assert table.layers[2, 0, 0, 0, 1].item() == (524692, 524690, 0)
    assert table.layers[1, 0, 1, 0, 0].item() == (55556, 55555, 0)
    assert set(table.layers["advice"][0].ravel().tolist()) == {255}


@pytest.mark.parametrize("version", [1, 2])
def test_advice_known_by_hand(version):
    """While clear is present, the table advises to climb where the intruder is 1000 ft below, and to descend where it is 170."""
    table = read_table(TABLES[version], read_model(EXAMPLES / "c.toml"))
    assert table.header.version == version and table.layers.shape == (2, 3, 2, 2, 2)
    assert np.all(table.layers["upper"] == 10**7) and np.all(table.layers["lower"] == -(10**7))
    assert set(table.layers["advice"][0].ravel().tolist()) == {255}
    assert np.all(table.layers["advice"][1, 0, 0] == 1) and np.all(table.layers["advice"][1, 0, 1] == 2)
    assert np.all(table.layers["advice"][1, 1:] == 0)


def test_bytes_of_the_example_of_version_2():
    """They are those of version 1 with another number and a digest behind each layer, over all before."""
    first, second = (TABLES[version].read_bytes() for version in (1, 2))
    assert first[4:8] == b"\1\0\0\0" and second[4:8] == b"\2\0\0\0"
    entries = [first[HEADER + C_LAYER * layer :][:C_LAYER] for layer in (0, 1)]
    header = first[:4] + b"\2\0\0\0" + first[8:HEADER]
    one = hashlib.sha256(header + entries[0]).digest()
    assert second == header + entries[0] + one + entries[1] + hashlib.sha256(one + entries[1]).digest()
    assert len(second) == 940 == read_table(TABLES[2]).header.length


def test_migrated_table_is_the_example(acas, tmp_path):
    for name in TABLES.values():
        assert acas.output("migrate", EXAMPLES / "c.toml", name, tmp_path / "new") == "migrated layers 2 states 24 bytes 940\n"
        assert (tmp_path / "new").read_bytes() == TABLES[2].read_bytes()


def test_every_entry_is_as_the_program_prints_it(acas):
    model = read_model(EXAMPLES / "d.toml")
    table = read_table(acas.table(EXAMPLES / "d.toml"), model)
    printed = [line.split(" ") for line in acas.output("values", EXAMPLES / "d.toml").splitlines()]
    places = list(np.ndindex(table.layers.shape))
    assert len(printed) == len(places)
    for (n, p, i, j, k), words in zip(places, printed):
        rates = (model.altitude[i], model.own_rate[j], model.intruder_rate[k])
        assert words[:5] == [str(n), model.names[p], *map(str, rates)]
        upper, lower, advice = table.layers[n, p, i, j, k].item()
        assert (lower, upper) == (millionths(words[5]), millionths(words[6]))
        assert words[7] == ("-" if n == 0 else model.names[advice])


@pytest.mark.parametrize("version", [1, 2])
def test_mapped_and_read_only(version):
    layers = read_table(TABLES[version]).layers
    base = layers
    while base.base is not None and isinstance(base.base, np.ndarray):
        base = base.base
    assert isinstance(base, np.memmap)
    with pytest.raises(ValueError):
        layers["upper"][0] = 0


def test_header(acas):
    header = read_table(acas.table(EXAMPLES / "d.toml")).header
    assert (header.version, header.altitudes, header.own_rates, header.intruder_rates, header.advisories) == (2, 4, 3, 2, 4)
    assert (header.horizon, header.length) == (30, 51644)
    assert header.model_digest == hashlib.sha256((EXAMPLES / "d.toml").read_bytes()).digest()


def with_advice(content: bytes, layer: int, state: int, advice: int) -> bytes:
    """The table of examples/c.toml with another advice, and the digests that belong to it."""
    place = HEADER + C_LAYER * layer + 17 * state + 16 + (DIGEST * layer if content[4] == 2 else 0)
    return resigned(content[:place] + bytes([advice]) + content[place + 1 :])


def with_bit(content: bytes, place: int) -> bytes:
    """A table with another bit in a byte, and its old digests."""
    return content[:place] + bytes([content[place] ^ 1]) + content[place + 1 :]


BROKEN = [
    ("magic", lambda content: b"ACXU" + content[4:], "magic is not ACXT"),
    ("empty", lambda content: b"", "length 0, less than the 60 of a header"),
    ("no header", lambda content: content[:59], "length 59, less than the 60 of a header"),
    ("version 0", lambda content: resigned(content[:4] + b"\0" + content[5:]), "version 0"),
    ("version 3", lambda content: resigned(content[:4] + b"\3" + content[5:]), "version 3"),
    ("greatest version", lambda content: content[:4] + b"\xff" * 4 + content[8:], "version 4294967295"),
    ("model", lambda content: resigned(content[:8] + b"\0" + content[9:]), "other model 00"),
    ("shape", lambda content: resigned(content[:40] + b"\3\0\0\0" + content[44:]), "shape 0 is 3 not 2"),
    ("advisories", lambda content: resigned(content[:52] + b"\1\0\0\0" + content[56:]), "shape 3 is 1, outside 2 to 16"),
    ("horizon", lambda content: resigned(content[:56] + b"\xff" + content[57:]), "shape 4 is 255, outside 0 to 120"),
    ("advice of layer 0", lambda content: with_advice(content, 0, 5, 0), "layer 0 state 5 byte 0"),
    ("advice", lambda content: with_advice(content, 1, 9, 3), "layer 1 state 9 byte 3"),
]


BROKEN_IN_VERSION = {
    1: [
        ("cut", lambda content: content[:-1], "length 907 of 908"),
        ("longer", lambda content: content + b"\0", "length 909 of 908"),
        ("digest", lambda content: with_bit(content, 907), "digest "),
        ("value", lambda content: with_bit(content, HEADER), "digest "),
        ("under the number 2", lambda content: content[:4] + b"\2" + content[5:], "length 908 of 940"),
    ],
    2: [
        ("cut", lambda content: content[:-1], "length 939 of 940"),
        ("cut before the last digest", lambda content: content[:908], "length 908 of 940"),
        ("longer", lambda content: content + b"\0", "length 941 of 940"),
        ("digest of layer 0", lambda content: with_bit(content, HEADER + C_LAYER), "layer 0 digest "),
        ("digest of layer 1", lambda content: with_bit(content, 939), "layer 1 digest "),
        ("value of layer 0", lambda content: with_bit(content, HEADER), "layer 0 digest "),
        ("value of layer 1", lambda content: with_bit(content, HEADER + C_LAYER + DIGEST), "layer 1 digest "),
        ("both layers", lambda content: with_bit(with_bit(content, HEADER), 939), "layer 0 digest "),
        ("another layer's digest", lambda content: content[:-32] + content[468:500], "layer 1 digest "),
        ("under the number 1", lambda content: content[:4] + b"\1" + content[5:], "length 940 of 908"),
    ],
}
CASES = [(version, *case) for version in (1, 2) for case in [*BROKEN, *BROKEN_IN_VERSION[version]]]


@pytest.mark.parametrize(("version", "name", "broken", "fault"), CASES, ids=[f"{version} {name}" for version, name, _, _ in CASES])
def test_broken_tables_name_the_field(tmp_path, version, name, broken, fault):
    path = tmp_path / "t.acxt"
    path.write_bytes(broken(TABLES[version].read_bytes()))
    with pytest.raises(Fault) as raised:
        read_table(path, read_model(EXAMPLES / "c.toml"))
    assert str(raised.value).startswith(f"{path}: {fault}")


def test_digests_of_a_damaged_layer_are_told(tmp_path):
    """The one that stands in the file, and the one of the bytes: 60 of the header and 408 of layer 0."""
    content = with_bit(TABLES[2].read_bytes(), 100)
    path = tmp_path / "t.acxt"
    path.write_bytes(content)
    with pytest.raises(Fault) as raised:
        read_table(path)
    assert str(raised.value) == f"{path}: layer 0 digest {content[468:500].hex()} computed {hashlib.sha256(content[:468]).hexdigest()}"


def test_advice_that_may_not_be_chosen(tmp_path, acas, changed):
    """In examples/b.toml only clear, number 0, may be chosen. The advice of layer 2, state 3 is made 1."""
    content = acas.table(EXAMPLES / "b.toml").read_bytes()
    place = HEADER + 2 * (B_LAYER + DIGEST) + 17 * 3 + 16
    path = tmp_path / "t.acxt"
    path.write_bytes(resigned(content[:place] + b"\1" + content[place + 1 :], B_LAYER))
    with pytest.raises(Fault, match="layer 2 state 3 advice not allowed"):
        read_table(path, read_model(EXAMPLES / "b.toml"))


@pytest.mark.parametrize("version", [1, 2])
def test_table_of_another_model(version):
    with pytest.raises(Fault, match="other model [0-9a-f]{64} found [0-9a-f]{64} of .*d.toml"):
        read_table(TABLES[version], read_model(EXAMPLES / "d.toml"))
