"""The properties of Unicode that ECMA-262 names (its tables 67 to 70), as the store's dialect names them."""
import re
from functools import lru_cache
from typing import Dict, Iterable, Optional, Tuple

from .characters import ALL, NEVER, Characters, by_name, outside

__all__ = ["dialect_property", "ecma_property"]


def _by_each_name(rows: Iterable[str]) -> Dict[str, str]:
    """The first name of each row by each of its names."""
    return {name: row.split()[0] for row in rows for name in row.split()}


# The general categories by each name, with the short one.
_CATEGORY_OF = _by_each_name((
    "LC Cased_Letter", "Pe Close_Punctuation", "Pc Connector_Punctuation", "Cc Control cntrl", "Sc Currency_Symbol",
    "Pd Dash_Punctuation", "Nd Decimal_Number digit", "Me Enclosing_Mark", "Pf Final_Punctuation", "Cf Format",
    "Pi Initial_Punctuation", "L Letter", "Nl Letter_Number", "Zl Line_Separator", "Ll Lowercase_Letter",
    "M Mark Combining_Mark", "Sm Math_Symbol", "Lm Modifier_Letter", "Sk Modifier_Symbol", "Mn Nonspacing_Mark",
    "N Number", "Ps Open_Punctuation", "C Other", "Lo Other_Letter", "No Other_Number", "Po Other_Punctuation",
    "So Other_Symbol", "Zp Paragraph_Separator", "Co Private_Use", "P Punctuation punct", "Z Separator",
    "Zs Space_Separator", "Mc Spacing_Mark", "Cs Surrogate", "S Symbol", "Lt Titlecase_Letter", "Cn Unassigned",
    "Lu Uppercase_Letter"))

# The properties that a character has or has not, by each name, with the long one.
_BINARY = _by_each_name((
    "ASCII_Hex_Digit AHex", "Alphabetic Alpha", "Assigned", "Bidi_Control Bidi_C", "Bidi_Mirrored Bidi_M",
    "Case_Ignorable CI", "Cased", "Changes_When_Casefolded CWCF", "Changes_When_Casemapped CWCM",
    "Changes_When_Lowercased CWL", "Changes_When_NFKC_Casefolded CWKCF", "Changes_When_Titlecased CWT",
    "Changes_When_Uppercased CWU", "Dash", "Default_Ignorable_Code_Point DI", "Deprecated Dep", "Diacritic Dia",
    "Emoji", "Emoji_Component EComp", "Emoji_Modifier EMod", "Emoji_Modifier_Base EBase",
    "Emoji_Presentation EPres", "Extended_Pictographic ExtPict", "Extender Ext", "Grapheme_Base Gr_Base",
    "Grapheme_Extend Gr_Ext", "Hex_Digit Hex", "IDS_Binary_Operator IDSB", "IDS_Trinary_Operator IDST",
    "ID_Continue IDC", "ID_Start IDS", "Ideographic Ideo", "Join_Control Join_C", "Logical_Order_Exception LOE",
    "Lowercase Lower", "Math", "Noncharacter_Code_Point NChar", "Pattern_Syntax Pat_Syn",
    "Pattern_White_Space Pat_WS", "Quotation_Mark QMark", "Radical", "Regional_Indicator RI",
    "Sentence_Terminal STerm", "Soft_Dotted SD", "Terminal_Punctuation Term", "Unified_Ideograph UIdeo",
    "Uppercase Upper", "Variation_Selector VS", "White_Space space", "XID_Continue XIDC", "XID_Start XIDS"))

# Those that are ranges alone.
_RANGES = {"Any": ALL.ranges, "ASCII": ((0, 0x7F),)}

_SCRIPTS = {"Script": "sc", "sc": "sc", "Script_Extensions": "scx", "scx": "scx"}


def ecma_property(name: str, value: Optional[str], is_negated: bool) -> Optional[Characters]:
    """What `\\p{name=value}` or `\\p{name}` means; None if ECMA-262 has no such property."""
    if value is None and name in _RANGES:
        return Characters(outside(_RANGES[name]) if is_negated else _RANGES[name])
    if value is None:
        key = ("gc", _CATEGORY_OF[name]) if name in _CATEGORY_OF else ("", _BINARY.get(name, ""))
    elif name in ("General_Category", "gc"):
        key = "gc", _CATEGORY_OF.get(value, "")
    else:
        key = _SCRIPTS.get(name, ""), value.replace("_", "").lower() if name in _SCRIPTS else ""
    if key == ("gc", "Cs"):
        # No text has a surrogate.
        return ALL if is_negated else NEVER
    return Characters((), frozenset([(*key, is_negated)])) if key[1] else None


# ---- the store's dialect, where names are loose

_KINDS = {"generalcategory": "gc", "gc": "gc", "script": "sc", "sc": "sc", "scriptextensions": "scx", "scx": "scx"}


def dialect_property(name: str) -> Tuple[Characters, bool]:
    """What the text in `\\p{..}` names, and whether those outside of it are meant. What isn't known keeps its name."""
    for separator in ("!=", ":", "="):
        kind, found, value = name.partition(separator)
        if found:
            return _named(_KINDS.get(_loose(kind), _loose(kind)), _loose(value)), separator == "!="
    return _named("", _loose(name)), False


def _named(kind: str, name: str) -> Characters:
    if not kind and name in ("any", "ascii"):
        return Characters(_RANGES["Any" if name == "any" else "ASCII"])
    known = _loose_names().get((kind, name))
    return by_name(*known) if known is not None else by_name(kind or "sc", name)


@lru_cache(maxsize=1)
def _loose_names() -> Dict[Tuple[str, str], Tuple[str, str]]:
    """The properties by their kind and their loose names."""
    categories = {_loose(name): ("gc", short) for name, short in _CATEGORY_OF.items()}
    binary = {_loose(name): ("", long) for name, long in _BINARY.items()}
    return {**{("gc", name): found for name, found in categories.items()},
            **{("", name): found for name, found in (*categories.items(), *binary.items())}}


def _loose(name: str) -> str:
    """A name without what decides nothing in it (UAX 44, section 5.9.3)."""
    short = re.sub(r"[\s_-]", "", name).lower()
    return short[2:] if short.startswith("is") and short != "is" else short
