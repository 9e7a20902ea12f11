"""What a run may answer in which an allocation was refused: as a run without the requests that were out of memory, in which none is refused."""
import programs

OUT_OF_MEMORY = b"-OOM not enough memory"
# an allocation may be refused before any request, or while one is read
EARLY_ENDS = (programs.NO_MEMORY, programs.WRITE_FAULT)
# a server may find no memory for its socket, or for the one link
UNSERVED = (programs.ACCEPT_FAULT, programs.BIND_FAULT)
ABSENT = b"no-such-key"


def end_of_reply(output, at):
    """Where the reply ends that begins there, or None where it isn't whole."""
    line_end = output.find(b"\r\n", at)
    if line_end < 0:
        return None
    kind, number, after = output[at : at + 1], output[at + 1 : line_end], line_end + 2
    if kind in b"+-:":
        return after
    if kind == b"$":
        end = after + (int(number) + 2 if int(number) >= 0 else 0)
        return end if end <= len(output) else None
    for _ in range(int(number)):
        after = end_of_reply(output, after)
        if after is None:
            return None
    return after


def replies_of(output):
    """The whole replies, and what is left of one more."""
    replies, at = [], 0
    while at < len(output) and (end := end_of_reply(output, at)) is not None:
        replies.append(output[at:end])
        at = end
    return replies, output[at:]


def message_at(data, at):
    """The words of the message that begins there, and where it ends. The input has no fault and isn't cut short."""
    line_end = data.index(b"\n", at)
    if data[at : at + 1] != b"*":
        return data[at:line_end].rstrip(b"\r").split(), line_end + 1
    words, after = [], line_end + 1
    for _ in range(int(data[at + 1 : line_end])):
        start = data.index(b"\n", after) + 1
        end = start + int(data[after + 1 : start])
        words.append(data[start:end])
        after = end + 2
    return words, after


def messages_of(data):
    """The messages that have a word, each as its words."""
    messages, at = [], 0
    while at < len(data):
        words, at = message_at(data, at)
        if words:
            messages.append(words)
    return messages


def as_arrays(messages):
    pieces = []
    for words in messages:
        pieces.append(b"*%d\r\n" % len(words))
        pieces += [b"$%d\r\n%s\r\n" % (len(word), word) for word in words]
    return b"".join(pieces)


def draws(words):
    return words[0].upper() in (b"VADD", b"VRANDMEMBER")


class Connection:
    """A connection with this input. `run` has a connection's whole input and refuses no allocation."""

    def __init__(self, data, run):
        self.run = run
        self.messages = messages_of(data)
        whole = run(data)
        self.status = whole.status
        self.replies, rest = replies_of(whole.output)
        assert not rest and OUT_OF_MEMORY + b"\r\n" not in self.replies, "a run in which nothing is refused"
        self.without = {}

    def replies_without(self, refused, drawn):
        """The replies to the other messages. A message that was refused may have drawn its random words before."""
        if (refused, drawn) not in self.without:
            words = self.messages[refused]
            stand_in = [[b"VRANDMEMBER", ABSENT, *words[2:]] if words[0].upper() == b"VRANDMEMBER" else [b"VRANDMEMBER", ABSENT]]
            messages = self.messages[:refused] + (stand_in if drawn else []) + self.messages[refused + 1 :]
            replies, _ = replies_of(self.run(as_arrays(messages)).output)
            self.without[refused, drawn] = replies[:refused] + replies[refused + drawn :]
        return self.without[refused, drawn]

    def possible(self, refused):
        """The replies that may come where these messages were out of memory."""
        if not refused:
            return [self.replies]
        return [self.replies_without(refused[0], drawn) for drawn in ([0, 1] if draws(self.messages[refused[0]]) else [0])]

    def difference_in(self, ran):
        replies, rest = replies_of(ran.output)
        refused = [place for place, reply in enumerate(replies) if reply == OUT_OF_MEMORY + b"\r\n"]
        if len(refused) > (1 if ran.refused else 0):
            return f"{len(refused)} messages were out of memory"
        if any(len(self.messages[place]) == 1 for place in refused):
            return f"a message of one word was out of memory: {self.messages[refused[0]]}"
        is_whole = len(replies) == len(self.replies) and not rest
        is_early = ran.status in EARLY_ENDS or (ran.status in UNSERVED and not ran.output)
        if ran.status != self.status and not (ran.refused and is_early):
            return f"status {ran.status}: {ran.told}"
        if not is_whole and not ran.refused:
            return f"{len(replies)} of {len(self.replies)} replies"
        wrote = b"".join(reply for place, reply in enumerate(replies) if place not in refused) + rest
        possible = [b"".join(wanted) for wanted in self.possible(refused)]
        if any(wrote == wanted if is_whole else wanted.startswith(wrote) for wanted in possible):
            return None
        return f"wrote {wrote!r}\nwanted {possible!r}"


class Schedule:
    """A schedule, of which each line after the first is one event and prints one line."""

    def __init__(self, data, run):
        self.run = run
        self.head, *self.events = [line for line in data.split(b"\n") if line]
        whole = run(data)
        self.status = whole.status
        self.lines = whole.output.splitlines()
        assert len(self.lines) == len(self.events) and not any(OUT_OF_MEMORY in line for line in self.lines), "a run in which nothing is refused"

    def given_up(self, refused):
        """The event that was refused, and those of its actor that it gives up: an actor is idle after a refusal."""
        actor, kind = self.events[refused].split(b" ")[:2]
        gone = [refused]
        if kind in (b"finish", b"prepare", b"commit"):
            for place in range(refused - 1, -1, -1):
                other, its_kind = self.events[place].split(b" ")[:2]
                if other == actor:
                    gone.append(place)
                    if its_kind in (b"look", b"draft"):
                        break
        return gone

    def difference_in(self, ran):
        lines = ran.output.split(b"\n")
        lines, rest = lines[:-1], lines[-1]
        refused = [place for place, line in enumerate(lines) if OUT_OF_MEMORY in line]
        if len(refused) > (1 if ran.refused else 0):
            return f"{len(refused)} events were out of memory"
        is_whole = len(lines) == len(self.lines) and not rest
        if ran.status != self.status and not (ran.refused and ran.status in EARLY_ENDS):
            return f"status {ran.status}: {ran.told}"
        if not is_whole and not ran.refused:
            return f"{len(lines)} of {len(self.lines)} lines"
        gone = self.given_up(refused[0]) if refused else []
        events = [self.head] + [event for place, event in enumerate(self.events) if place not in gone]
        wanted = self.run(b"\n".join(events) + b"\n").output if gone else b"".join(line + b"\n" for line in self.lines)
        wrote = b"".join(line + b"\n" for place, line in enumerate(lines) if place not in gone) + rest
        if wrote == wanted if is_whole else wanted.startswith(wrote):
            return None
        return f"wrote {wrote!r}\nwanted {wanted!r}"
