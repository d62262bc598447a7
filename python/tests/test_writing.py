"""The writer of tables: what is read is written with the same bytes, and what is no table is refused by its name."""
import resource

import numpy as np
import pytest
from conftest import EXAMPLES

from acas_table import Fault, read_model, read_table, write_table

TABLES = {1: EXAMPLES / "c.acxt", 2: EXAMPLES / "c2.acxt"}
"""The same table of examples/c.toml in either version."""


@pytest.fixture
def model():
    return read_model(EXAMPLES / "c.toml")


def fields_of(table) -> dict[str, np.ndarray]:
    """Copies of the arrays of a table."""
    return {name: table.layers[name].copy() for name in ("upper", "lower", "advice")}


@pytest.mark.parametrize("version", [1, 2])
def test_bytes_of_the_examples(model, tmp_path, version):
    """Over another file, by the version that is written unless another is asked for, and over the file that the arrays are mapped from."""
    layers = read_table(TABLES[version], model).layers
    path = tmp_path / "c.acxt"
    path.write_bytes(b"old")
    write_table(path, model, layers["upper"], layers["lower"], layers["advice"], version)
    assert path.read_bytes() == TABLES[version].read_bytes()
    write_table(path, model, layers["upper"], layers["lower"], layers["advice"])
    assert path.read_bytes() == TABLES[2].read_bytes()
    own = read_table(path, model).layers
    write_table(path, model, own["upper"], own["lower"], own["advice"], version)
    assert path.read_bytes() == TABLES[version].read_bytes()
    assert list(tmp_path.iterdir()) == [path]


@pytest.mark.parametrize("version", [1, 2])
@pytest.mark.parametrize(("values", "numbers"), [("i8", "u1"), (">i8", "i8"), ("i4", "u8"), ("u8", ">i2")])
def test_what_is_written_is_read(model, tmp_path, version, values, numbers):
    """Of any whole numbers, and of arrays that do not lie in one piece."""
    made = np.random.default_rng(version)
    dtype = np.dtype(values)
    least, greatest = np.iinfo(dtype).min, min(np.iinfo(dtype).max, 2**63 - 1)
    upper, lower = made.integers(least, greatest, size=(2, *reversed(model.shape)), dtype=dtype.newbyteorder("="), endpoint=True).astype(dtype)
    upper.flat[0], lower.flat[-1] = least, greatest
    advice = fields_of(read_table(TABLES[1], model))["advice"]
    write_table(tmp_path / "t.acxt", model, upper.T, lower.T, advice.astype(numbers), version)
    table = read_table(tmp_path / "t.acxt", model)
    assert table.header.version == version
    for name, array in (("upper", upper.T), ("lower", lower.T), ("advice", advice)):
        assert np.array_equal(table.layers[name], array)


def with_advice(layer: int, present: int, number: int):
    """A change that makes the last advice under a present advisory another number."""
    def changed(advice):
        other = advice.astype("i8")
        other[layer, present, -1, -1, -1] = number
        return other

    return changed


def masked(array):
    return np.ma.masked_array(array, mask=False)


SHAPE = "(2, 3, 2, 2, 2)"
REFUSED = [
    ("list", "upper", lambda array: array.tolist(), "upper: type is list not ndarray"),
    ("masked", "lower", masked, "lower: type is MaskedArray not ndarray"),
    ("floats", "upper", lambda array: array / 1, "upper: dtype float64 is none of whole numbers"),
    ("nan", "lower", lambda array: array * np.nan, "lower: dtype float64 is none of whole numbers"),
    ("bool", "advice", lambda array: array > 0, "advice: dtype bool is none of whole numbers"),
    ("objects", "upper", lambda array: array.astype(object) + 2**70, "upper: dtype object is none of whole numbers"),
    ("times", "lower", lambda array: array.astype("m8[s]"), "lower: dtype timedelta64[s] is none of whole numbers"),
    ("axes", "upper", lambda array: array.reshape(2, 3, 8), f"upper: shape is (2, 3, 8) not {SHAPE}"),
    ("layers", "lower", lambda array: array[1:], f"lower: shape is (1, 3, 2, 2, 2) not {SHAPE}"),
    ("order", "advice", lambda array: array.T, f"advice: shape is (2, 2, 2, 3, 2) not {SHAPE}"),
    ("wide", "upper", lambda array: np.full(array.shape, 2**63, dtype="u8"), f"upper: layer 0 state 0 is {2**63}, outside {-(2**63)} to {2**63 - 1}"),
    ("a byte with sign", "advice", lambda array: array.astype("i1"), "advice: layer 0 state 0 is -1, outside 0 to 255"),
    ("advice of layer 0", "advice", with_advice(0, 0, 0), "advice: layer 0 state 7 byte 0"),
    ("advice", "advice", with_advice(1, 1, 3), "advice: layer 1 state 15 byte 3"),
    ("no advice", "advice", with_advice(1, 2, 255), "advice: layer 1 state 23 byte 255"),
    ("below", "advice", with_advice(1, 2, -1), "advice: layer 1 state 23 is -1, outside 0 to 255"),
    ("beyond a byte", "advice", with_advice(1, 0, 257), "advice: layer 1 state 7 is 257, outside 0 to 255"),
]


@pytest.mark.parametrize(("name", "field", "changed", "fault"), REFUSED, ids=[name for name, *_ in REFUSED])
def test_what_is_no_table_names_the_array(model, tmp_path, name, field, changed, fault):
    path = tmp_path / "t.acxt"
    fields = fields_of(read_table(TABLES[2], model))
    with pytest.raises(Fault) as raised:
        write_table(path, model, **fields | {field: changed(fields[field])})
    assert str(raised.value) == f"{path} {fault}" and not path.exists()


@pytest.mark.parametrize("version", [0, 3, True, 2.0, "2", None])
def test_a_version_that_is_none(model, tmp_path, version):
    with pytest.raises(Fault) as raised:
        write_table(tmp_path / "t.acxt", model, **fields_of(read_table(TABLES[2], model)), version=version)
    assert str(raised.value) == f"{tmp_path / 't.acxt'}: version {version}"


def test_advice_that_may_not_be_chosen(acas, tmp_path):
    """In examples/b.toml only clear, number 0, may be chosen. The advice of layer 2, state 3 is made 1."""
    model = read_model(EXAMPLES / "b.toml")
    fields = fields_of(read_table(acas.table(EXAMPLES / "b.toml"), model))
    fields["advice"][2, 0, 0, 1, 1] = 1
    with pytest.raises(Fault, match="t.acxt advice: layer 2 state 3 advice not allowed"):
        write_table(tmp_path / "t.acxt", model, **fields)


def test_the_model_is_not_written_over(changed, tmp_path):
    path = changed("c.toml")
    text, link = path.read_bytes(), tmp_path / "link"
    link.symlink_to(path)
    for name in (path, link):
        with pytest.raises(Fault, match="file is that of the model"):
            write_table(name, read_model(path), **fields_of(read_table(TABLES[2])))
    assert path.read_bytes() == text and link.is_symlink()


def test_a_file_that_cannot_be_written_stays(model, tmp_path):
    """A folder in its way, no folder for it, a file for its folder, and no room for all of its 940 bytes: the error names the file, and nothing
    else is left."""
    fields = fields_of(read_table(TABLES[2], model))
    (tmp_path / "folder").mkdir()
    (tmp_path / "old").write_bytes(b"old")
    limits = resource.getrlimit(resource.RLIMIT_FSIZE)
    for name, size in (("folder", limits[0]), ("nowhere/t.acxt", limits[0]), ("old/t.acxt", limits[0]), ("old", 900)):
        resource.setrlimit(resource.RLIMIT_FSIZE, (size, limits[1]))
        try:
            with pytest.raises(OSError) as raised:
                write_table(tmp_path / name, model, **fields)
        finally:
            resource.setrlimit(resource.RLIMIT_FSIZE, limits)
        assert raised.value.filename == str(tmp_path / name) and raised.value.strerror
    assert (tmp_path / "old").read_bytes() == b"old" and sorted(path.name for path in tmp_path.iterdir()) == ["folder", "old"]
    assert not list((tmp_path / "folder").iterdir())


def test_bounds_that_are_not_sound_are_written_and_refused(acas, model, tmp_path):
    """No second of examples/c.toml costs anything, and the upper values of the layer below are all 10."""
    fields = fields_of(read_table(TABLES[2], model))
    fields["upper"][1, 2, 0, 0, 1] = -1
    path = tmp_path / "t.acxt"
    write_table(path, model, **fields)
    ended = acas.run("check", EXAMPLES / "c.toml", path)
    assert ended.returncode == 5 and "table refused: layer 1 state 17 upper -0.000001 under 10.000000" in ended.stderr
