"""expr: the old name of exprlang. It warns, and passes calls on. `eval` is exprlang.evaluate now."""

import warnings

from exprlang import *  # noqa: F401, F403
from exprlang import __all__, __version__, compile, evaluate as eval  # noqa: F401

warnings.warn(
    "the module expr is exprlang now, and expr.eval is exprlang.evaluate",
    DeprecationWarning,
    stacklevel=2,
)
