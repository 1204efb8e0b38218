"""Values of columns as texts: the words of a command line, the cells of a CSV file, what a table shows."""
from urweb_companion.clear import clear
from urweb_companion.layout import Column

# None is the value of a column that is empty.
Value = int | str | bool | None
Row = tuple[Value, ...]

LEAST, GREATEST = -(2**63), 2**63 - 1

# The size of a value is 32 and the bytes of its text, 32 more where the column may be empty, and at most this.
MOST_SIZE = 16_777_216
MOST_BYTES = MOST_SIZE - 32

BOOLS = {"true": True, "false": False}


def value_of(column: Column, text: str) -> Value:
    """Returns the value of a column that a text spells; a ValueError says what is wrong with it.

    In a column that may be empty the empty text is the empty value, and a text may stand in quotes.
    """
    if column.is_optional and text == "":
        return None
    match column.inner:
        case "int":
            return _int_of(text)
        case "bool":
            return _bool_of(text)
        case _ if column.is_optional:
            return _text_of(text[1:-1] if _is_quoted(text) else text, most_bytes(column))
        case _:
            return _text_of(text, most_bytes(column))


def cell_of(column: Column, value: Value) -> str:
    """Returns a text that spells a value of a column."""
    text = text_of(value)
    is_mistaken = column.is_optional and value is not None and (text == "" or _is_quoted(text))
    return f'"{text}"' if is_mistaken else text


def _is_quoted(text: str) -> bool:
    return len(text) > 1 and text[0] == text[-1] == '"'


def most_bytes(column: Column) -> int:
    """Returns how many bytes a text of a column may have."""
    return MOST_BYTES - 32 if column.is_optional else MOST_BYTES


def _int_of(text: str) -> int:
    digits = text.strip()
    if not (digits.removeprefix("-").isascii() and digits.removeprefix("-").isdigit()):
        raise ValueError(f"{clear(text)!r} is no int")
    if len(digits) > 20 or not LEAST <= int(digits) <= GREATEST:
        raise ValueError(f"{clear(text)!r} is no int of 64 bits")
    return int(digits)


def _bool_of(text: str) -> bool:
    value = BOOLS.get(text.strip().lower())
    if value is None:
        raise ValueError(f"{clear(text)!r} is neither True nor False")
    return value


def _text_of(text: str, most: int) -> str:
    try:
        size = len(text.encode())
    except UnicodeEncodeError:
        raise ValueError("the text is not UTF-8") from None
    if size > most:
        raise ValueError(f"the text has {size} bytes, more than {most}")
    return text


def text_of(value: Value) -> str:
    """Returns the text that `show` gives of a value, and the empty text of the empty value."""
    if value is None:
        return ""
    return value if isinstance(value, str) else str(value)
