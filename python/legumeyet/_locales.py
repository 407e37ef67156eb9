"""The locales of the world's book, names of locales, and the version of the library."""
from typing import List, Optional

from . import _core


def tag_of_locale_name(name: Optional[str]) -> str:
    """The tag of a locale's name, as `LANG` and `locale.setlocale` give it: codeset and modifier are cut, and each `_` becomes `-`. `C`,
    `POSIX`, an empty name and None are `en`. Whether a formatter can be opened of the tag is not looked at.

    >>> [tag_of_locale_name(name) for name in ("de_DE.UTF-8", "sr_RS@latin", "pt_BR", "C.UTF-8", "", None)]
    ['de-DE', 'sr-RS', 'pt-BR', 'en', 'en', 'en']
    """
    if name is not None and not isinstance(name, str):
        raise TypeError(f"the name of a locale is a str or None, and not {type(name).__name__}")
    return _core.tag_of_locale_name(None if name is None else name.encode("utf-8", "surrogateescape"))


def world_locales() -> List[str]:
    """The tags of the world's locales, in order.

    >>> "de-AT" in world_locales()
    True
    """
    return _core.world_locales()


def version() -> int:
    """The version of the library.

    >>> version()
    2
    """
    return _core.VERSION


def minor() -> int:
    """The minor version of the library, which rises when something is added.

    >>> minor() >= 0
    True
    """
    return _core.MINOR
