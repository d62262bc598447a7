"""The command `acas_export`, once its packages are found."""
import importlib

from acas_exchange.endings import library_of
from acas_exchange.files import cannot_be_written, refuse_read
from acas_table.layout import contents_of
from acas_table.model import read_model
from acas_table.table import read_table
from acas_table.writing import write_whole


def export(model_path: str, table_path: str, path: str) -> None:
    """Writes the numbers of a table to a file. What is not as it has to be is a fault, and a file that was there stays as it was."""
    library = importlib.import_module(f"acas_exchange.{library_of(path).module}")
    model = read_model(model_path)
    table = read_table(table_path, model)
    refuse_read(path, (model_path, table_path))
    content = library.content_of(contents_of(table, model))
    try:
        write_whole(path, [content])
    except OSError as error:
        raise cannot_be_written(path, error) from None
