"""Log lines as JSON or text."""

from __future__ import annotations

import json
import logging
import pathlib
import time
from typing import Any, TextIO

from sagas.base.wording import escaped


logger = logging.getLogger("sagas.server")


class Lines(logging.Formatter):
    """One JSON object a line: time, level, logger, message, and the fields of this package."""

    def format(self, record: logging.LogRecord) -> str:
        at = time.strftime("%Y-%m-%dT%H:%M:%S", time.gmtime(record.created))
        line = {
            "at": f"{at}.{int(record.msecs):03}Z",
            "level": record.levelname.lower(),
            "logger": record.name,
            "message": record.getMessage(),
        }
        fields = getattr(record, "sagas", None)
        if isinstance(fields, dict):
            line |= {
                name: value for name, value in fields.items() if name not in line and name != "at"
            }
        if record.exc_info:
            line["trace"] = self.formatException(record.exc_info)
        return json.dumps(line, default=str)


class Text(logging.Formatter):
    """One line of text for each message, with its time in UTC.

    Newlines in messages are escaped. The lines of a traceback are indented.
    """

    converter = time.gmtime
    default_msec_format = "%s.%03dZ"

    def formatMessage(self, record: logging.LogRecord) -> str:
        record.message = escaped(record.message)
        return super().formatMessage(record)

    def formatException(self, *arguments: Any) -> str:
        return "\n".join(
            f"    {escaped(line)}" for line in super().formatException(*arguments).split("\n")
        )


class LogFile(logging.FileHandler):
    """A file of log lines that is opened again after its rotation."""

    def reopen(self) -> None:
        """Write to the file that has the name now. If that fails, write to the former one."""
        try:
            stream = self._open()
        except OSError as error:
            logger.error("%s cannot be opened again: %s", self.baseFilename, error.strerror)
            return
        self.acquire()
        try:
            previous, self.stream = self.stream, stream
        finally:
            self.release()
        previous.close()
        logger.info("%s was opened again", self.baseFilename)


def begin(
    form: str, level: str, stream: TextIO, file: pathlib.Path | None = None
) -> LogFile | None:
    """Send all log messages to a stream, or to the end of a file.

    Returns:
        The handler of the file, or None.

    Raises:
        OSError: The file cannot be opened.
    """
    log_file = None if file is None else LogFile(file, encoding="utf-8")
    handler = log_file or logging.StreamHandler(stream)
    handler.setFormatter(
        Lines() if form == "json" else Text("%(asctime)s %(levelname)s %(name)s: %(message)s")
    )
    root = logging.getLogger()
    root.handlers[:] = [handler]
    root.setLevel(level.upper())
    logging.getLogger("asyncio").setLevel(logging.WARNING)
    # it warns of each request that is not HTTP
    logging.getLogger("uvicorn").setLevel(logging.ERROR)
    return log_file
