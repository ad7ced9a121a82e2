"""Numbers of things in words, and texts in one line."""


def number(count: int, word: str, plural: str | None = None) -> str:
    """Say how many there are of something: `1 saga`, `2 sagas`, `2 families`."""
    return f"{count} {word if count == 1 else plural or f'{word}s'}"


def escaped(text: str) -> str:
    """Return a text in one line, with escapes for characters that are not printable.

    So a text of a caller or a worker cannot add a line or move the cursor of a terminal.
    """
    return (
        text
        if text.isprintable()
        else "".join(
            character if character.isprintable() else ascii(character)[1:-1] for character in text
        )
    )
