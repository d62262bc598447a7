"""The command `acas_import`, once its packages are found."""
import importlib

from acas_exchange.endings import library_of
from acas_exchange.files import cannot_be_written, refuse_read
from acas_exchange.stored import numbers_of
from acas_origin import digest_of
from acas_table import read_model, write_table


def import_table(model_path: str, path: str, table_path: str) -> str:
    """Writes a table of the numbers in a file. What is not as it has to be is a fault, and a table that was there stays as it was.

    It gives what is to be said of the new table: nothing where it is the one that the file was made of, byte for byte.
    """
    library = importlib.import_module(f"acas_exchange.{library_of(path).module}")
    model = read_model(model_path)
    with open(path, "rb"):
        refuse_read(table_path, (model_path, path))
    with library.opened(path) as stored:
        numbers = numbers_of(stored, model)
        digest = stored.attributes.get("table_sha256")
    try:
        write_table(table_path, model, numbers.upper, numbers.lower, numbers.advice, numbers.version)
    except OSError as error:
        raise cannot_be_written(table_path, error) from None
    if digest == digest_of(table_path):
        return ""
    return f"{table_path}: is not the table that {path} was made of: acas check says whether it is sound"
