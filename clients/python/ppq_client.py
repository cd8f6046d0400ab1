"""A priority queue that outgrows memory, in a child process: ppq-serve, spoken to in frames (docs/serve.md).

    from ppq_client import Queue

    with Queue(command) as queue:          # the words that start the server
        queue.push(5, 1)
        queue.push_many([(3, 9), (7, 2)])
        assert queue.pop() == (3, 9)
        assert len(queue) == 2

A record is a tuple of two numbers (a pair) or of three (a triple), each from 0 to 2**64 - 1; the order is that of whole
tuples, "up" (the least first) or "down". If the server ends, a call raises Ended with its status and its report; so does
every call after one that was interrupted. One thread at a time may use a queue. Python 3.8 or later; NumPy only for
`push_array` and `pop_array`.
"""

import itertools
import struct
import subprocess

ROUND = 65_536  # records that one request adds or takes at most
GATHERED = 65_536  # bytes of pushes that are gathered before they are sent

NUMBERS = {"pair": 2, "triple": 3}
FRAME = struct.Struct(">I")
COUNT = struct.Struct(">Q")
SIZE_BYTES = FRAME.size + COUNT.size  # the last frame of each answer: how many records there are
MARK_BYTES = FRAME.size + 1  # a frame of one letter

CLOSED = "the queue is closed"
LOST = "a call was interrupted, so its answer is lost"


class Ended(Exception):
    """The server has ended, and the records are gone: `status` is its exit status, below 0 the signal that killed it, and
    `report` what it wrote on standard error. After a call that was interrupted `status` is None, and `report` says so."""

    def __init__(self, status, report, message=None):
        how = f"was killed by signal {-status}" if status is not None and status < 0 else f"ended with status {status}"
        super().__init__(message or f"ppq-serve {how}{': ' * bool(report)}{report}")
        self.status = status
        self.report = report


class Queue:
    """A queue in a server that `command` starts, a list of words: the program and its sizes. `report` is what the server
    wrote on standard error, once it has ended."""

    def __init__(self, command, kind="pair", order="up"):
        if kind not in NUMBERS:
            raise ValueError(f"the kind is pair or triple, not {kind!r}")
        if order not in ("up", "down"):
            raise ValueError(f"the order is up or down, not {order!r}")
        numbers = NUMBERS[kind]
        self._record = struct.Struct(f">{numbers}Q")
        self._pushed = struct.Struct(f">c{numbers}Q")
        self._framed = struct.Struct(f">4x{numbers}Q")
        self._columns = numbers
        self._pushes = bytearray()  # operations that push, not yet sent
        self._gathered = 0  # the records in them
        self._size = 0  # records in the server's queue, as the last answer said
        self._answer = memoryview(bytearray(ROUND * self._framed.size + MARK_BYTES + SIZE_BYTES))  # of many records
        self._over = None
        self.report = ""
        pipe = subprocess.PIPE
        self._server = subprocess.Popen(command, stdin=pipe, stdout=pipe, stderr=pipe)
        self._ask(self._frames, f"ppq-serve 1 {kind} {order}".encode())

    def push(self, *numbers):
        """Adds one record. Pushes are gathered, and sent in front of the next other request."""
        try:
            operation = self._pushed.pack(b"+", *numbers)
        except struct.error:
            raise self._fault(numbers) from None
        self._gather(1, operation)

    def push_many(self, records):
        """Adds the records of any iterable of tuples, of which it takes 65,536 at a time. They are gathered too, and sent
        once they are many. If one is no record, ValueError is raised, and none of its 65,536 is added."""
        records = iter(records)
        while part := list(itertools.islice(records, ROUND)):
            self.push_bytes(b"".join(self._packed(part)))

    def push_bytes(self, records):
        """Adds the records of a record file's bytes: each number in 8 bytes, the most significant first."""
        size, records = self._record.size, memoryview(records).cast("B")
        if len(records) % size:
            raise ValueError(f"{len(records)} bytes are no whole number of records of {size} bytes")
        for at in range(0, len(records), ROUND * size):
            part = records[at : at + ROUND * size]
            count = len(part) // size
            self._gather(count, b"P" + FRAME.pack(count), part)

    def push_array(self, array):
        """Adds the rows of a NumPy array of two or three columns of whole numbers. With others, or one below 0, ValueError
        is raised, and none is added."""
        import numpy

        array = numpy.asarray(array)
        if array.ndim != 2 or array.shape[1] != self._columns:
            raise ValueError(f"the array has the shape {array.shape}, not (n, {self._columns})")
        if array.dtype.kind not in "ui":
            raise ValueError(f"the array has the type {array.dtype}, not one of whole numbers")
        if array.size and array.min() < 0:
            raise ValueError(f"the array has {array.min()}, which is below 0")
        for at in range(0, len(array), ROUND):
            self.push_bytes(array[at : at + ROUND].astype(">u8").tobytes())

    def flush(self):
        """Sends the pushes that were gathered, and waits until the queue has them."""
        if self._pushes:
            self._ask(self._frames)

    def pop(self):
        """Takes the least record, or None where there is none. One round trip."""
        return self._least(b"p")

    def top(self):
        """The least record, which stays; None where there is none. One round trip."""
        return self._least(b"t")

    def pop_many(self, count):
        """Takes the least so many records, or all where there are fewer: a list, the least first. A simulator wants
        `pop_below`: what it pushes may have to come before some that are taken here."""
        popped = []
        while len(popped) < count:
            asked = min(ROUND, count - len(popped))
            part = self._unpacked(self._popped(asked))
            popped += part
            if len(part) < asked:
                break
        return popped

    def pop_array(self, count=ROUND):
        """The same as a NumPy array of 64-bit numbers, a row a record."""
        import numpy

        frame = numpy.dtype([("length", ">u4"), ("numbers", ">u8", (self._columns,))])
        parts = [numpy.empty((0, self._columns), dtype="u8")]
        while count > 0:
            asked = min(ROUND, count)
            part = numpy.frombuffer(self._popped(asked), dtype=frame)["numbers"].astype("u8")
            parts.append(part)
            count = count - asked if len(part) == asked else 0
        return numpy.concatenate(parts)

    def pop_below(self, limit, count=ROUND):
        """Takes the least so many records that come before `limit`: their list, and whether no more come before it. With
        the limit `(now + d, 0)`, where `now` is the time of the least and `d` the shortest delay, all that a simulator
        pushes comes after all that it took."""
        popped, operation = [], b"b" + b"".join(self._packed([limit]))
        while True:
            asked = min(ROUND, count - len(popped))
            frames, mark = self._records(operation + COUNT.pack(asked), asked, MARK_BYTES)
            part = self._unpacked(frames)
            popped += part
            if mark == b"a" or len(part) < asked or len(popped) >= count:
                return popped, mark == b"a"

    def __len__(self):
        """How many records there are. No request is sent."""
        return self._size + self._gathered

    def close(self):
        """Sends what was gathered and ends the server. Raises Ended if its status is not 0."""
        if self._over is None:
            self.flush()
            if self._wait().status:
                raise self._over
            self._over = Ended(0, self.report, CLOSED)

    def __enter__(self):
        return self

    def __exit__(self, kind, value, trace):
        if kind is None:
            self.close()
        elif self._over is None:
            self._server.kill()
            self._collect()
            self._over = Ended(self._server.returncode, self.report, CLOSED)

    def _packed(self, records):
        """The bytes of each of these records."""
        try:
            return [self._record.pack(*record) for record in records]
        except struct.error:
            raise self._fault(*records) from None

    def _fault(self, *records):
        """What is wrong with the first of these that is no record."""
        for numbers in records:
            try:
                self._record.pack(*numbers)
            except struct.error:
                break
        return ValueError(f"{numbers!r} is no record of {self._columns} whole numbers from 0 to 2**64-1")

    def _gather(self, count, operation, records=b""):
        """Puts a push of so many records behind those that were gathered, and sends them once they are many."""
        if self._over is not None:
            raise self._over
        if len(self._pushes) + len(operation) + len(records) < GATHERED:
            self._pushes += operation + records  # at once, so that no interrupt comes between them
            self._gathered += count
        else:
            self._ask(self._frames, operation, records)

    def _ask(self, read, operation=b"", records=b""):
        """Sends one request, the pushes that were gathered and behind them these bytes, and returns what `read` reads of
        its answer. If anything but the server's end comes between, what is left of request and answer would spoil the
        next ones: so the server is ended."""
        if self._over is not None:
            raise self._over
        try:
            self._send(operation, records)
            return read()
        except Ended:
            raise
        except BaseException:
            self._over = Ended(None, LOST, LOST)
            self._server.kill()
            self._collect()
            raise

    def _send(self, operation, records):
        pushes, self._pushes, self._gathered = self._pushes, bytearray(), 0
        length = len(pushes) + len(operation) + len(records)
        try:
            stdin = self._server.stdin
            stdin.write(FRAME.pack(length) + pushes + operation)
            stdin.write(records)
            stdin.flush()
        except BrokenPipeError:
            raise self._wait() from None

    def _read(self, count):
        data = self._server.stdout.read(count)
        if len(data) < count:
            raise self._wait()
        return data

    def _frames(self):
        """The frames of one answer without the last, the only one of 8 bytes, which says how many records there are."""
        frames = []
        while True:
            length = FRAME.unpack(self._read(FRAME.size))[0]
            frame = self._read(length)
            if length == COUNT.size:
                self._size = COUNT.unpack(frame)[0]
                return frames
            frames.append(frame)

    def _least(self, operation):
        frame = self._ask(self._frames, operation)[-1]
        return None if frame == b"e" else self._record.unpack(frame)

    def _popped(self, count):
        return self._records(b"n" + COUNT.pack(count), count, 0)[0]

    def _records(self, operation, count, mark):
        """The frames of at most so many records that one request pops, in one piece that stays until the next one, and the
        letter behind them, if `mark` bytes of a frame with a letter come there."""
        return self._ask(lambda: self._piece(count, mark), operation)

    def _piece(self, count, mark):
        step, tail = self._framed.size, mark + SIZE_BYTES
        head = FRAME.pack(self._record.size)
        data = self._answer[: step * count + tail]
        got = 0
        # The answer ends where whole frames of records and then no record's frame but the tail were read.
        while got % step != tail or data[got - tail : got - tail + FRAME.size] == head:
            more = self._server.stdout.readinto1(data[got:])
            if not more:
                raise self._wait()
            got += more
        self._size = COUNT.unpack(data[got - COUNT.size : got])[0]
        end = got - tail
        return data[:end], bytes(data[end + FRAME.size : end + mark])

    def _unpacked(self, frames):
        return list(self._framed.iter_unpack(frames))

    def _wait(self):
        """Closes the pipes, waits for the end of the server, and keeps how it ended."""
        self._collect()
        self._over = Ended(self._server.returncode, self.report)
        return self._over

    def _collect(self):
        """Closes the pipes, waits for the end of the server, and keeps what it wrote on standard error."""
        _, report = self._server.communicate()
        self.report = report.decode(errors="replace").strip()
