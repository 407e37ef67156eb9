"""Tries what docs/engines.md shows of Dask: the package for Python over a column."""
import sys
import zipfile

import testing
from testing import TOP, environment, need

from .common import folder, library, page_block, run, trimmed

# That of Debian, which has Dask.
PYTHON = "/usr/bin/python3"
# A column of tags and one of amounts, written in parts by Dask and at once; it prints how many texts they are.
ROWS = """
import dask.dataframe as dd
import numpy as np
import pandas as pd
from legumeyet import DecimalFormatter

def written(rows):
    texts = [pd.Series(DecimalFormatter(tag).format_all(its.amount), index=its.index) for tag, its in rows.groupby("tag")]
    return pd.concat(texts).reindex(rows.index) if texts else pd.Series([], dtype=object)

at = np.arange(200_000)
rows = pd.DataFrame({"tag": np.array(["de", "en", "hi", "ar-EG"])[at % 4], "amount": (at * 7919 % 100_000_007 - 50_000_000) / 100})
spread = dd.from_pandas(rows, npartitions=16).map_partitions(written, meta=(None, object)).compute()
print(len(spread) if spread.equals(written(rows)) else "other texts")
"""


class Dask(testing.Rows):
    """Tests by threads and by processes, with the wheel unpacked."""

    @classmethod
    def setUpClass(cls):
        """Makes the wheel."""
        need("cc", "Python.h", "dask", "pandas")
        wheel = run(sys.executable, TOP / "tools/build_wheel", "--library", library(), folder() / "wheels").rstrip("\n")
        with zipfile.ZipFile(wheel) as packed:
            packed.extractall(folder() / "site")

    def answers(self, typed):
        """What Python prints by each scheduler."""
        how = {"PYTHONPATH": folder() / "site", "PYTHONDONTWRITEBYTECODE": 1}
        return {it: run(PYTHON, "-c", typed, env=environment(DASK_SCHEDULER=it, **how)) for it in ("threads", "processes")}

    def test_page(self):
        """What docs/engines.md has somebody type prints what it says."""
        typed, shown = page_block("Dask and Spark", "engines")
        for scheduler, said in self.answers(typed).items():
            self.row(f"docs/engines.md by {scheduler}", trimmed(said), shown)

    def test_column(self):
        """200,000 rows."""
        for scheduler, said in self.answers(ROWS).items():
            self.row(f"a column by {scheduler}", said, "200000\n")
