"""The rows of the gate, as the tools read them."""

import common  # noqa: F401  (finds the tools)
from common import HERE  # noqa: F401
from mmstools.row_files import DATA, Row, Step, rows, text_of  # noqa: F401
