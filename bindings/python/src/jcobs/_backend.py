"""Chooses the code to use: the extension `_core` if it can be loaded, otherwise `_plain`, which is written in Python.

If the environment variable JCOBS_BACKEND is "python", `_plain` is used. If it is "prebuilt" or "compiled", and the
extension can't be loaded, ImportError is raised. With either of these two values, either kind of extension is used. If
the variable is neither empty nor one of the three names, ImportError is raised. If an earlier installation has left an
extension of another version, a warning is issued, and `_plain` is used, even if the variable is "prebuilt" or
"compiled".
"""

from __future__ import annotations

import os
import warnings
from typing import TYPE_CHECKING, Literal

from jcobs import __version__


def is_other(found: object) -> bool:
    """Returns whether an extension belongs to another version of the package, and warns if it does."""
    version = getattr(found, "version", "an older version")
    if version == __version__:
        return False
    warnings.warn(
        f"jcobs {__version__} has an extension of {version}, and works in plain Python: install it again",
        RuntimeWarning,
        stacklevel=2,
    )
    return True


if TYPE_CHECKING:
    from jcobs import _core as core
elif os.environ.get("JCOBS_BACKEND", "") not in ("", "prebuilt", "compiled", "python"):
    raise ImportError("JCOBS_BACKEND must be prebuilt, compiled or python")
elif os.environ.get("JCOBS_BACKEND") == "python":
    from jcobs import _plain as core
else:
    try:
        from jcobs import _core as core
    except ImportError:
        if os.environ.get("JCOBS_BACKEND"):
            raise
        from jcobs import _plain as core
    if is_other(core):
        from jcobs import _plain as core

Backend = Literal["prebuilt", "compiled", "python"]
backend: Backend = core.backend

__all__ = ["Backend", "backend", "core"]
