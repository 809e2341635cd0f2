"""FAST 1.1 streams and recordings in memory: canonical bytes, counts, lines and back, by the proved library (docs/LIBRARY.md).

Templates are a text in JSON or in XML, as `str` or bytes, a file, as `os.PathLike`, or `Templates` that were read once.

The shared library is the one that the environment variable FASTCAT_LIBRARY names; or libfastcat.so in this folder, or in
the repository's lib/, where lib/build puts it; or the one that the loader finds.
"""

from ._answers import Answer, Cause, FastcatError, Status
from ._calls import canon, check, check_templates, show, write
from ._messages import Reader, messages
from ._library import library as _loaded
from ._library import version_of as _version_of
from ._templates import Field, Templates, XmlError, XmlWarning, json_of_xml

__all__ = [
    "Answer",
    "Cause",
    "FastcatError",
    "Field",
    "Reader",
    "Status",
    "Templates",
    "XmlError",
    "XmlWarning",
    "canon",
    "check",
    "check_templates",
    "json_of_xml",
    "messages",
    "show",
    "write",
]

__version__ = _version_of(_loaded)
