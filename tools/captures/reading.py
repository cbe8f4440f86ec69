# SPDX-License-Identifier: MIT
"""The messages in captures of both kinds, packets and dnstap."""
from tools.captures import dnstap
from tools.captures.replays import name_of, opened
from tools.captures.seen import NoCapture


def messages_in(files, capture, counts):
    """What was seen in these files, one after another."""
    for path in files:
        with opened(path) as stream:
            is_frames = dnstap.is_dnstap(stream.peek(4))
            try:
                yield from (dnstap.messages(stream, counts) if is_frames
                            else capture.messages(stream))
            except NoCapture as fault:
                raise NoCapture(f"{name_of(path)} is not a capture: {fault}") from fault
    capture.end()
