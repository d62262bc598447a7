"""Taking the numbers out of a table and in again: the same bytes, what each library reads, and files that are refused."""
import resource
import subprocess
import sys
from contextlib import contextmanager

import h5py
import netCDF4
import numpy as np
import pytest
import xarray
from conftest import EXAMPLES, TOP

from acas_exchange.exporting import export
from acas_exchange.importing import import_table
from acas_table import Fault, read_model, read_table, to_xarray, write_table

MODEL = EXAMPLES / "c.toml"
TABLES = {1: EXAMPLES / "c.acxt", 2: EXAMPLES / "c2.acxt"}
"""The same table of examples/c.toml in either version."""
ENDINGS = ("h5", "nc")
DIMENSIONS = ("seconds_to_go", "present_advisory", "altitude", "own_rate", "intruder_rate")
BELOW = {"seconds_to_go": 1, "present_advisory": "clear", "altitude": -170, "own_rate": 0, "intruder_rate": 0}
"""A state of examples/c.toml, in which its table advises to descend."""
FILL = -(2**63) + 2
"""What NetCDF takes for a number that is not there, where nothing else is said."""


def run(script: str, *words, options=("-B",)) -> tuple[int, str, str]:
    """A run of a script: its code, and what it printed on either stream."""
    command = [sys.executable, *options, str(TOP / "python" / script), *map(str, words)]
    ended = subprocess.run(command, capture_output=True, text=True, check=False)
    return ended.returncode, ended.stdout, ended.stderr


@contextmanager
def limited(most: int | None):
    """Lets no file be written of more bytes, as on a disk that is full."""
    before = resource.getrlimit(resource.RLIMIT_FSIZE)
    resource.setrlimit(resource.RLIMIT_FSIZE, (before[1] if most is None else most, before[1]))
    try:
        yield
    finally:
        resource.setrlimit(resource.RLIMIT_FSIZE, before)


def fault_of(call, *words, most: int | None = None) -> str:
    """The text of the fault that a call ends with."""
    with pytest.raises(Fault) as raised, limited(most):
        call(*map(str, words))
    assert "\n" not in str(raised.value)
    return str(raised.value)


@pytest.fixture
def dataset() -> xarray.Dataset:
    """The table of examples/c.toml."""
    model = read_model(MODEL)
    return to_xarray(read_table(TABLES[2], model), model)


@pytest.mark.parametrize(("version", "ending"), [(1, "h5"), (2, "nc")])
def test_same_bytes_by_the_scripts(tmp_path, version, ending):
    file, table = tmp_path / f"c.{ending}", tmp_path / "c.acxt"
    assert run("acas_export", MODEL, TABLES[version], file) == (0, "", "")
    assert run("acas_import", MODEL, file, table) == (0, "", "")
    assert table.read_bytes() == TABLES[version].read_bytes()
    assert sorted(tmp_path.iterdir()) == sorted([table, file])


@pytest.mark.parametrize(("version", "ending"), [(1, "nc"), (2, "h5"), (2, "NC")])
def test_same_bytes_out_and_in_again(tmp_path, version, ending):
    file, table = tmp_path / f"c.{ending}", tmp_path / "c.acxt"
    export(str(MODEL), str(TABLES[version]), str(file))
    assert import_table(str(MODEL), str(file), str(table)) == ""
    assert table.read_bytes() == TABLES[version].read_bytes()


@pytest.mark.parametrize("ending", ENDINGS)
def test_greatest_numbers_stay_whole(tmp_path, ending):
    """Those that no float64 has, and those that libraries take for missing ones."""
    model = read_model(MODEL)
    table, again, file = tmp_path / "t.acxt", tmp_path / "again.acxt", tmp_path / f"t.{ending}"
    made = np.random.default_rng(7)
    upper, lower = made.integers(-(2**63), 2**63 - 1, size=(2, *model.shape), endpoint=True)
    upper.flat[:5] = [-(2**63), 2**63 - 1, FILL, 2**53 + 1, 0]
    write_table(table, model, upper, lower, read_table(TABLES[2], model).layers["advice"])
    export(str(MODEL), str(table), str(file))
    with xarray.open_dataset(file) as found:
        assert np.array_equal(found.upper, upper) and np.array_equal(found.lower, lower)
    assert import_table(str(MODEL), str(file), str(again)) == ""
    assert again.read_bytes() == table.read_bytes()


@pytest.fixture(params=ENDINGS)
def exported(request, tmp_path):
    """The table of examples/c.toml in a file of each kind."""
    file = tmp_path / f"c.{request.param}"
    export(str(MODEL), str(TABLES[2]), str(file))
    return file


def test_xarray_reads_what_to_xarray_makes(exported, dataset):
    with xarray.open_dataset(exported) as found:
        xarray.testing.assert_identical(found, dataset)
        assert [found[name].dtype for name in ("upper", "lower", "advice")] == [np.int64, np.int64, np.uint8]
        state = found.sel(BELOW)
        assert (int(state.upper), int(state.lower), int(state.advice)) == (10**7, -(10**7), 2)
        assert str(found.present_advisory[int(state.advice)].item()) == "descend"
        assert set(found.advice.sel(seconds_to_go=0).values.ravel().tolist()) == {255}


def test_netcdf4_reads_names_units_and_numbers(exported):
    with netCDF4.Dataset(exported) as file:
        assert set(file.variables) == {*DIMENSIONS, "upper", "lower", "advice"}
        for name, kind in (("upper", np.int64), ("lower", np.int64), ("advice", np.uint8)):
            variable = file[name]
            assert (variable.dimensions, variable.shape, variable.dtype) == (DIMENSIONS, (2, 3, 2, 2, 2), kind)
            assert not {"scale_factor", "add_offset", "_FillValue", "missing_value"} & set(variable.ncattrs())
        assert [getattr(file[name], "units", None) for name in DIMENSIONS] == ["s", None, "ft", "ft/min", "ft/min"]
        assert file["upper"].units == file["lower"].units == "1e-6"
        assert file["seconds_to_go"][:].tolist() == [0, 1] and file["altitude"][:].tolist() == [-1000, -170]
        assert file["own_rate"][:].tolist() == [0, 60] and file["intruder_rate"][:].tolist() == [-60, 0]
        assert file["present_advisory"][:].tolist() == ["clear", "climb", "descend"]
        assert (int(file["upper"][1, 0, 1, 0, 1]), int(file["advice"][1, 0, 1, 0, 1])) == (10**7, 2)
        assert file["advice"].flag_values.tolist() == [0, 1, 2, 255]
        assert file["advice"].flag_meanings == "clear climb descend no.advice"


def test_h5py_reads_scales_numbers_and_attributes(exported):
    """The digests are those of `sha256sum` of the two example files."""
    with h5py.File(exported) as file:
        upper = file["upper"]
        assert [scales[0].name for scales in upper.dims] == [f"/{name}" for name in DIMENSIONS]
        assert upper.dtype == np.dtype("<i8") and upper[1, 0, 1, 0, 1] == 10**7
        assert file["advice"].dtype == np.uint8 and file["advice"][1, 0, 1, 0, 1] == 2
        assert file["present_advisory"].asstr()[...].tolist() == ["clear", "climb", "descend"]
        said = {name: np.array(value).item() for name, value in file.attrs.items()}
        texts = {name: value.decode() if isinstance(value, bytes) else value for name, value in said.items()}
    assert texts["Conventions"] == "CF-1.9" and texts["title"] == "Vertical advisory table of acas"
    assert (texts["acas_format_version"], texts["table_version"]) == (1, 2)
    assert texts["model_sha256"] == "50f70b74ef48d1abbe0bf076e6c1f961023b0dec2d78d96b40763fe71e1f2228"
    assert texts["table_sha256"] == "7f7e4fd572e722bd187ac49cbad0102c58749bde4f3e43c697a3959bb8c8d849"


def test_changed_number_makes_a_new_table(tmp_path, exported):
    """Changed in its place by h5py, or by xarray, which writes another file."""
    model, table = read_model(MODEL), tmp_path / "new.acxt"
    with h5py.File(exported, "r+") as file:
        file["upper"][1, 0, 1, 0, 1] += 1
    note = f"{table}: is not the table that {exported} was made of: acas check says whether it is sound"
    assert import_table(str(MODEL), str(exported), str(table)) == note
    wanted = read_table(TABLES[2], model).layers.copy()
    wanted["upper"][1, 0, 1, 0, 1] = 10_000_001
    assert np.array_equal(read_table(table, model).layers, wanted)
    with xarray.open_dataset(exported) as found:
        changed = found.load()
    changed.upper.loc[BELOW] -= 1
    again = tmp_path / f"again{exported.suffix}"
    changed.to_netcdf(again, engine="netcdf4")
    assert import_table(str(MODEL), str(again), str(table)) == ""
    assert table.read_bytes() == TABLES[2].read_bytes()


def test_program_says_whether_a_new_table_is_sound(acas, tmp_path, exported):
    """A table that goes out and in is accepted; one with another advice, whose bounds are then none of it, is not."""
    table = tmp_path / "new.acxt"
    import_table(str(MODEL), str(exported), str(table))
    assert acas.output("check", MODEL, table) == "accepted layers 2 states 24\n"
    with h5py.File(exported, "r+") as file:
        file["upper"][0, 0, 0, 0, 0] = -(10**12)
    import_table(str(MODEL), str(exported), str(table))
    assert acas.run("check", MODEL, table).returncode == 5


def with_advice(dataset: xarray.Dataset, layer: int, advice: int) -> xarray.Dataset:
    """The dataset with another advice in a layer, at the second altitude of the first present advisory."""
    dataset.advice[layer, 0, 1, 0, 1] = advice
    return dataset


REFUSED = [
    ("no variable", lambda all: all.drop_vars("lower"), "lower is missing"),
    ("no axis", lambda all: all.drop_vars("seconds_to_go"), "seconds_to_go "),
    ("floats", lambda all: all.assign(upper=all.upper / 1e6), "upper has the type float64, not int64"),
    ("wide advice", lambda all: all.assign(advice=all.advice.astype("i2")), "advice has the type int16, not uint8"),
    ("axis of floats", lambda all: all.assign_coords(altitude=[-1000.0, -170.0]), "altitude has the type float64, not int64"),
    ("numbers for names", lambda all: all.assign_coords(present_advisory=[0, 1, 2]), "present_advisory has the type int64, not str"),
    ("order", lambda all: all.transpose("altitude", ...), f"upper has the dimensions {', '.join([DIMENSIONS[2], *DIMENSIONS[:2], *DIMENSIONS[3:]])}, not "),
    ("less dimensions", lambda all: all.assign(lower=all.lower.isel(own_rate=0, drop=True)), "lower has the dimensions seconds_to_go, present_"),
    ("a layer less", lambda all: all.isel(seconds_to_go=slice(1)), "seconds_to_go has the shape 1, not 2"),
    ("other altitude", lambda all: all.assign_coords(altitude=[-1000, -171]), f"altitude is -1000, -171, and {MODEL} has -1000, -170"),
    ("other order of names", lambda all: all.assign_coords(present_advisory=["clear", "descend", "climb"]), "present_advisory is clear, descend, climb, and"),
    ("other model", lambda all: all.assign_attrs(model_sha256="00"), f"other model 00 found 50f70b74ef48d1abbe0bf076e6c1f961023b0dec2d78d96b40763fe71e1f2228 of {MODEL}"),
    ("no model", lambda all: all.assign_attrs(model_sha256=1), "other model 1 found"),
    ("later format", lambda all: all.assign_attrs(acas_format_version=2), "acas_format_version is 2, not 1"),
    ("format of a list", lambda all: all.assign_attrs(acas_format_version=[1, 1]), "acas_format_version is [1, 1], not 1"),
    ("later version", lambda all: all.assign_attrs(table_version=3), "table_version is 3, not 1 or 2"),
    ("no attributes", lambda all: xarray.Dataset(all.variables), "acas_format_version is missing"),
    ("advice that is none", lambda all: with_advice(all, 1, 3), "layer 1 state 5 byte 3"),
    ("no advice with a second to go", lambda all: with_advice(all, 1, 255), "layer 1 state 5 byte 255"),
    ("advice in layer 0", lambda all: with_advice(all, 0, 0), "layer 0 state 5 byte 0"),
]


@pytest.mark.parametrize("ending", ENDINGS)
def test_refused_files_leave_the_table(tmp_path, dataset, ending):
    table, file = tmp_path / "old.acxt", tmp_path / f"c.{ending}"
    table.write_bytes(b"old")
    for name, change, fault in REFUSED:
        change(dataset.copy(deep=True)).to_netcdf(file, engine="netcdf4")
        assert fault_of(import_table, MODEL, file, table).startswith(f"{file}: {fault}"), name
        assert table.read_bytes() == b"old" and sorted(tmp_path.iterdir()) == sorted([file, table]), name


@pytest.mark.parametrize("ending", ENDINGS)
def test_advice_that_may_not_be_chosen(tmp_path, acas, ending):
    """In examples/b.toml only clear, number 0, may be chosen."""
    model, file = read_model(EXAMPLES / "b.toml"), tmp_path / f"b.{ending}"
    changed = with_advice(to_xarray(read_table(acas.table(EXAMPLES / "b.toml"), model), model), 2, 1)
    changed.to_netcdf(file, engine="netcdf4")
    found = fault_of(import_table, EXAMPLES / "b.toml", file, tmp_path / "b.acxt")
    assert found == f"{file}: layer 2 state 5 advice not allowed"


def test_files_of_another_kind(tmp_path, exported):
    whole = exported.read_bytes()
    kind = {".h5": "HDF5: h5py says ", ".nc": "NetCDF: netCDF4 says "}[exported.suffix]
    for content in (b"", b"cell 0 clear", whole[:4000], TABLES[2].read_bytes()):
        exported.write_bytes(content)
        assert fault_of(import_table, MODEL, exported, tmp_path / "new.acxt").startswith(f"{exported}: cannot be read as {kind}")
        assert list(tmp_path.iterdir()) == [exported]


OUTSIDE = [
    (export, (MODEL, TABLES[2], "c.txt"), None, "c.txt: ending is none of .h5 and .nc"),
    (import_table, (MODEL, TABLES[2], "new.acxt"), None, f"{TABLES[2]}: ending is none of .h5 and .nc"),
    (export, (EXAMPLES / "d.toml", TABLES[2], "old.h5"), None, f"{TABLES[2]}: other model "),
    (export, (TABLES[2], TABLES[2], "old.nc"), None, f"{TABLES[2]}: not toml:"),
    (export, (MODEL, MODEL, "old.nc"), None, f"{MODEL}: magic is not ACXT"),
    (export, (MODEL, "table.h5", "table.h5"), None, "table.h5: is read: it would be written over"),
    (import_table, (MODEL, "c.h5", "c.h5"), None, "c.h5: is read: it would be written over"),
    (export, (MODEL, TABLES[2], "folder.h5"), None, "folder.h5: cannot be written: Is a directory"),
    (import_table, (MODEL, "c.h5", "folder.h5"), None, "folder.h5: cannot be written: Is a directory"),
    (export, (MODEL, TABLES[2], "nowhere/c.nc"), None, "nowhere/c.nc: cannot be written: No such file or directory"),
    (export, (MODEL, TABLES[2], "old.h5"), 1000, "old.h5: cannot be written: File too large"),
    (export, (MODEL, TABLES[2], "old.nc"), 1000, "old.nc: cannot be written: File too large"),
    (import_table, (MODEL, "c.h5", "old.acxt"), 500, "old.acxt: cannot be written: File too large"),
]


def test_what_is_outside_is_one_line_and_files_stay(tmp_path, monkeypatch):
    monkeypatch.chdir(tmp_path)
    export(str(MODEL), str(TABLES[2]), "c.h5")
    (tmp_path / "table.h5").write_bytes(TABLES[2].read_bytes())
    (tmp_path / "folder.h5").mkdir()
    for name in ("old.h5", "old.nc", "old.acxt"):
        (tmp_path / name).write_bytes(b"old")
    before = {path: path.is_dir() or path.read_bytes() for path in tmp_path.iterdir()}
    for call, words, most, fault in OUTSIDE:
        assert fault_of(call, *words, most=most).startswith(fault), words
        assert {path: path.is_dir() or path.read_bytes() for path in tmp_path.iterdir()} == before


def test_faults_and_notes_of_the_scripts(tmp_path):
    """A fault ends with 1; that a table is a new one is said, and is none."""
    wrong, file, table = tmp_path / "c.txt", tmp_path / "c.h5", tmp_path / "c.acxt"
    assert run("acas_export", MODEL, TABLES[2], wrong) == (1, "", f"acas_export: {wrong}: ending is none of .h5 and .nc\n")
    export(str(MODEL), str(TABLES[2]), str(file))
    with h5py.File(file, "r+") as stored:
        stored["lower"][1, 0, 1, 0, 1] -= 1
    code, printed, said = run("acas_import", MODEL, file, table)
    assert (code, printed) == (0, "") and said.startswith(f"acas_import: {table}: is not the table that {file} was made of: ")
    wrong.touch()
    assert run("acas_import", MODEL, wrong, table) == (1, "", f"acas_import: {wrong}: ending is none of .h5 and .nc\n")


def test_missing_packages_are_named(tmp_path, monkeypatch):
    monkeypatch.chdir(tmp_path)
    for script, words, packages in (
        ("acas_export", (MODEL, TABLES[2], "c.h5"), "numpy and h5py: apt-get install python3-numpy python3-h5py"),
        ("acas_import", (MODEL, "c.nc", "new.acxt"), "numpy and netCDF4: apt-get install python3-numpy python3-netcdf4"),
    ):
        (tmp_path / "c.nc").touch()
        assert run(script, *words, options=("-B", "-S")) == (2, "", f"{script} needs the Python package {packages}\n")


def test_no_xarray(monkeypatch):
    model = read_model(MODEL)
    monkeypatch.setitem(sys.modules, "xarray", None)
    with pytest.raises(ImportError, match="^to_xarray needs the Python package xarray: apt-get install python3-xarray$"):
        to_xarray(read_table(TABLES[2], model), model)
