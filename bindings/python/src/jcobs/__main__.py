"""Shows the frames that arrive on a serial port or on standard input, or sends lines as frames."""

from __future__ import annotations

import argparse
import contextlib
import io
import json
import os
import sys
import unicodedata
from typing import TYPE_CHECKING, Any, BinaryIO, Dict, Iterator, List, Optional, cast

import jcobs
from jcobs import Message

if TYPE_CHECKING:
    from jcobs._files import Readable
    from jcobs._streams import Outcome

KINDS = {jcobs.Message: "message", jcobs.Broken: "broken", jcobs.TooLong: "too-long"}
# The categories of the characters that control a terminal, or that are invisible.
HIDDEN = ("Cc", "Cf", "Zl", "Zp")


class Fault(Exception):
    """An error whose text is printed for the user. The program then ends with status 1."""


def arguments() -> argparse.ArgumentParser:
    parser = argparse.ArgumentParser("python -m jcobs", description=__doc__)
    parser.add_argument("--version", action="version", version=f"jcobs {jcobs.__version__}, backend {jcobs.backend}")
    parser.add_argument(
        "--port", metavar="P", help="a serial port, such as /dev/ttyUSB0, instead of standard input or output"
    )
    parser.add_argument(
        "--baud", metavar="N", type=int, default=115200, help="the baud rate of the port (default: %(default)s)"
    )
    parser.add_argument("--sentinel", metavar="B", type=int, default=0, help="the byte that ends frames (default: 0)")
    parser.add_argument(
        "--as",
        dest="style",
        choices=["hex", "text", "json"],
        help="how frames are shown: hex, text (if it is UTF-8 without hidden characters) or json (default: hex)",
    )
    parser.add_argument(
        "--length", metavar="N", type=int, default=65536, help="the longest message, in bytes (default: %(default)s)"
    )
    parser.add_argument("--hex", action="store_true", help="each line that is sent has hexadecimal digits")
    parser.add_argument("command", nargs="?", choices=["show", "send"], default="show", help="(default: %(default)s)")
    return parser


def open_port(name: str, baud: int) -> Any:
    try:
        import serial
    except ImportError:
        raise Fault("--port needs pyserial: pip install pyserial") from None
    try:
        return serial.serial_for_url(name, baud)
    except (serial.SerialException, ValueError) as error:
        raise Fault(str(error)) from None


def members_of(number: int, outcome: Outcome) -> Dict[str, Any]:
    """Returns the members of an outcome's JSON object, as the program cobs_watch writes them."""
    members: Dict[str, Any] = {"frame": number, "kind": KINDS[type(outcome)]}
    if not isinstance(outcome, jcobs.TooLong):
        members["length"] = len(outcome.data)
    if isinstance(outcome, Message):
        members["hex"] = outcome.data.hex()
        with contextlib.suppress(UnicodeDecodeError):
            members["text"] = outcome.data.decode()
    return members


def line_of(members: Dict[str, Any], style: str) -> str:
    if style == "json":
        return json.dumps(members, separators=(",", ":"))
    shown, text = members.get("hex"), members.get("text")
    if style == "text" and text is not None and not any(unicodedata.category(one) in HIDDEN for one in text):
        shown = text
    words = (members["kind"].replace("-", " "), members.get("length"), shown)
    return " ".join(str(word) for word in words if word not in (None, ""))


def show(source: Readable, options: argparse.Namespace) -> None:
    reader = jcobs.FrameReader(source, options.length, options.sentinel)
    for number, outcome in enumerate(reader, 1):
        print(line_of(members_of(number, outcome), options.style), flush=True)
    if reader.unfinished:
        print(line_of({"kind": "unfinished"}, options.style), flush=True)


def messages(lines: BinaryIO, digits: bool) -> Iterator[bytes]:
    """Yields the message for each line of the input."""
    for number, line in enumerate(lines, 1):
        text = line[:-1] if line.endswith(b"\n") else line
        try:
            yield bytes.fromhex(text.decode("ascii")) if digits else text
        except ValueError:
            raise Fault(f"line {number} is not hexadecimal digits") from None


def send(lines: BinaryIO, port: BinaryIO, options: argparse.Namespace) -> None:
    for message in messages(lines, options.hex):
        port.write(jcobs.encode(message, sentinel=options.sentinel, terminated=True))
        port.flush()


def run(options: argparse.Namespace) -> None:
    port = open_port(options.port, options.baud) if options.port else None
    if options.command == "send":
        send(sys.stdin.buffer, port or sys.stdout.buffer, options)
    else:
        if isinstance(sys.stdout, io.TextIOWrapper):
            sys.stdout.reconfigure(errors="backslashreplace")  # for characters that the terminal can't show
        if port is None and sys.stdin.isatty():
            version = f"jcobs {jcobs.__version__}, backend {jcobs.backend}"
            print(f"{version}: waits for frames from the terminal", file=sys.stderr)
        show(port or cast("Readable", sys.stdin.buffer), options)


def main(words: Optional[List[str]] = None) -> int:
    parser = arguments()
    options = parser.parse_args(words)
    if not 0 <= options.sentinel <= 255:
        parser.error("--sentinel: must be in 0 to 255")
    if options.length < 0:
        parser.error("--length: must not be negative")
    if options.hex and options.command == "show":
        parser.error("--hex: is for send; to show frames, use --as")
    if options.style and options.command == "send":
        parser.error("--as: is for show; to send digits, use --hex")
    try:
        run(options)
    except BrokenPipeError:
        # Nobody reads the output any more, but the interpreter flushes it once more when it exits.
        os.dup2(os.open(os.devnull, os.O_WRONLY), sys.stdout.fileno())
    except (Fault, OSError, MemoryError, OverflowError) as error:
        print(f"jcobs: {str(error) or 'out of memory'}", file=sys.stderr)
        return 1
    except KeyboardInterrupt:
        return 130
    return 0


if __name__ == "__main__":
    sys.exit(main())
