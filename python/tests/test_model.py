"""The reader of models: the numbers of the examples, and the very faults that the program names."""
import importlib.machinery
import importlib.util

import numpy as np
import pytest
from conftest import EXAMPLES, TOP

from acas_table import Fault, read_model
from acas_table.model import model_of


def broken_models():
    """The broken models of schema/test: a text, and the program's line on it."""
    loader = importlib.machinery.SourceFileLoader("schema_test", str(TOP / "schema" / "test"))
    module = importlib.util.module_from_spec(importlib.util.spec_from_loader("schema_test", loader))
    loader.exec_module(module)
    for text, pieces in ((module.example("a.toml"), module.MODELS), (module.second_text(), module.SECOND_MODELS)):
        for old, new, _, fault in pieces:
            yield text.replace(old, new, 1), fault


def test_numbers_of_an_example():
    model = read_model(EXAMPLES / "d.toml")
    assert model.names == ("clear", "climb", "descend", "level")
    assert model.altitude.tolist() == [-1000, -670, 0, 1000] and model.altitude.dtype == np.int64
    assert model.own_rate.tolist() == [0, 1500, 3000] and model.intruder_rate.tolist() == [0, 3000]
    assert model.shape == (31, 4, 4, 3, 2)
    assert (model.radius, model.half_height, model.pull, model.limit, model.delay, model.contact) == (500, 100, 480, 960, 0, 5)
    assert model.advisories[3].choices == (0, 1, 2, 3) and model.advisories[3].costs == (0, 1, 1, 1)
    assert [(point.weight, point.own, point.intruder) for point in model.sigma] == [(1, 0, 0)]


def test_delay_of_version_2(changed):
    model = read_model(changed("d.toml", ("version = 1", "version = 2"), ("limit = 960", "limit = 960\ndelay = 5")))
    assert (model.version, model.delay) == (2, 5)


def test_numbers_cannot_be_written_to():
    with pytest.raises(ValueError):
        read_model(EXAMPLES / "d.toml").altitude[0] = 5


@pytest.mark.parametrize(("text", "fault"), list(broken_models()))
def test_broken_models_have_the_faults_of_the_program(text, fault):
    with pytest.raises(Fault) as raised:
        model_of(text.encode(), "m.toml")
    assert str(raised.value).removeprefix("m.toml: ").split(":")[0] == fault


@pytest.mark.parametrize("piece", [
    ("weight = 1", "weight = 1001"), ("own = 0", "own = -5001"), ("horizon = 0", "horizon = 121"),
    ('name = "level"', 'name = "clear"'), ("greatest = 500", "greatest = 499"), ("costs = [0]", "costs = [0, 1]"),
    ("altitude = [0, 200]", f"altitude = {list(range(129))}\nzoom = 1"), ('choices = ["clear"]', 'choices = ["clear "]'),
    ("costs = [0]", 'costs = ["0", 1]'), ('choices = ["clear"]', 'choices = ["clear", 1]'),
])
def test_the_program_refuses_the_same(acas, changed, piece):
    path = changed("a.toml", piece)
    with pytest.raises(Fault) as raised:
        read_model(path)
    assert acas.run("values", path).stderr == f"acas: model refused: {str(raised.value).removeprefix(f'{path}: ')}\n"


def test_texts_of_the_programs_toml(acas, changed):
    """A byte order mark, and an inline table over lines with a comma at its end."""
    bare = "\n[puck]\nradius = 500\nhalf_height = 1\n"
    path = changed("b.toml", ("version = 1", "\ufeffversion = 1"))
    text = path.read_text(encoding="utf-8")
    path.write_text("\ufeff" + text.replace("\ufeff", ""), encoding="utf-8")
    assert read_model(path).horizon == 2 and acas.run("values", path).returncode == 0
    assert bare in text
    inline = "puck = {\n  radius = 500, # ft\n  half_height = 1,\n}\n"
    path.write_text(inline + text.replace("\ufeff", "").replace(bare, "\n"), encoding="utf-8")
    assert read_model(path).half_height == 1 and acas.run("values", path).returncode == 0


def test_too_long(tmp_path):
    path = tmp_path / "long.toml"
    path.write_bytes(b"#" * 1_000_001)
    with pytest.raises(Fault, match="length is over 1000000 bytes"):
        read_model(path)


def test_names_and_rates_that_are_not_in_the_model():
    model = read_model(EXAMPLES / "d.toml")
    assert (model.number("level"), model.place("own_rate", 1500)) == (3, 1)
    with pytest.raises(Fault, match="advisory climb-fast is not in the model, which has clear, climb, descend, level"):
        model.number("climb-fast")
    with pytest.raises(Fault, match="grid.own_rate has no 1501, but 0, 1500, 3000"):
        model.place("own_rate", 1501)
