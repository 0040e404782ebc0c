"""A second reading of the rules: what `rtx run N` and `rtx admit` write, and their exit status.

`report(text, words)` answers both for a valid task file. It is made to be read and to be compared with the
program, not to be fast: objects are plain lists of numbers, an attempt is repeated where a loud call came in
between, and nothing is said of memory words.

`model.py run N <FILE` and `model.py admit <FILE` write the report of one file.
"""

import heapq
import math
import sys
import tomllib
from dataclasses import dataclass

CELL_MOST = 2**24 - 1
NUMBER_MOST = 2**32 - 1
WIDE = 2**96
POINTS_MOST = 1_000_000
COUNTS = ["ticks", "idle", "released", "finished", "replies", "retries", "preempted", "missed"]


# Task files


@dataclass
class Object:
    """A shared object; the capacity of a cell is 1."""

    name: str
    kind: str
    capacity: int

    def attempt(self):
        """The ticks of one attempt: a cell is read and exchanged, all others are copied besides."""
        return 2 if self.kind == "cell" else 2 * self.capacity + 6


@dataclass
class Work:
    """An item of a body that only takes time; `ticks` are the stated ones."""

    ticks: int


@dataclass
class Operation:
    """An item of a body that calls an object, which is told by its number from 0."""

    object: int
    word: str
    numbers: list


@dataclass
class Task:
    """A periodic task; the file order of a task is its place in the list of tasks."""

    name: str
    period: int
    deadline: int
    offset: int
    body: list


@dataclass
class TaskSet:
    """What a task file says; `demands` has ticks of work items by task (from 0), job and item (from 1)."""

    policy: str
    objects: list
    tasks: list
    demands: dict


def read_item(text, numbers_of_objects):
    """The item of a body: words are parted by spaces, and numbers may have leading zeros."""
    word, *rest = [piece for piece in text.split(" ") if piece]
    if word == "work":
        return Work(int(rest[0]))
    return Operation(numbers_of_objects[rest[0]], word, [int(piece) for piece in rest[1:]])


def read_task(row, numbers_of_objects):
    """A task of the file; the deadline is the period and the offset 0 where none is named."""
    body = [read_item(text, numbers_of_objects) for text in row["body"]]
    deadline = row.get("deadline", row["period"])
    return Task(row["name"], row["period"], deadline, row.get("offset", 0), body)


def read_set(text):
    """The task set of a valid file."""
    table = tomllib.loads(text.decode())
    objects = [Object(row["name"], row["kind"], row.get("capacity", 1)) for row in table.get("object", [])]
    numbers_of_objects = {part.name: number for number, part in enumerate(objects)}
    tasks = [read_task(row, numbers_of_objects) for row in table["task"]]
    numbers_of_tasks = {task.name: number for number, task in enumerate(tasks)}
    demands = {(numbers_of_tasks[row["task"]], row["job"], row["item"]): row["ticks"]
               for row in table.get("demand", [])}
    return TaskSet(table.get("policy", "rm"), objects, tasks, demands)


# Objects: each call answers the new state and the reply as it is printed


def first_state(part):
    """A cell is 0, registers are all 0, a queue and a list are empty."""
    return [0] * part.capacity if part.kind in ("cell", "registers") else []


def call_cell(state, word, numbers):
    """A cell holds one number, which never passes its greatest value."""
    value = state[0]
    if word == "get":
        return state, f"done {value}"
    if word == "set":
        return numbers, f"done {numbers[0]}"
    if word == "add":
        total = value + numbers[0]
        return (state, "over") if total > CELL_MOST else ([total], f"done {total}")
    old, new = numbers
    return ([new], f"done {new}") if value == old else (state, f"differs {value}")


def call_queue(state, capacity, word, numbers):
    """A queue appends at its end, where it is not full, and takes its first number."""
    if word == "put":
        full = len(state) == capacity
        return (state, "full") if full else (state + numbers, f"done {len(state) + 1}")
    return (state[1:], f"done {state[0]}") if state else (state, "empty")


def call_list(state, capacity, word, numbers):
    """A list holds numbers in rising order, each once.

    That a number is there already is said before that there is no room.
    """
    present = numbers[0] in state
    if word == "has":
        return state, "yes" if present else "no"
    if word == "remove":
        left = [number for number in state if number != numbers[0]]
        return (left, "removed") if present else (state, "absent")
    if present:
        return state, "present"
    return (state, "full") if len(state) == capacity else (sorted(state + numbers), "added")


def triples(numbers):
    """The rows of a call on several registers: register, old value, new value."""
    return [numbers[at:at + 3] for at in range(0, len(numbers), 3)]


def shift(state, source, target, amount):
    """Moves an amount between two registers. Too little in the one is said before too much in the other."""
    if state[source] < amount:
        return state, f"short {state[source]}"
    if state[target] + amount > NUMBER_MOST:
        return state, "over"
    after = list(state)
    after[source] -= amount
    after[target] += amount
    return after, f"done {after[target]}"


def call_registers(state, word, numbers):
    """Registers are read, shifted, or changed together or not at all: the first row that differs is told."""
    if word == "read":
        return state, f"done {state[numbers[0]]}"
    if word == "shift":
        return shift(state, *numbers)
    rows = triples(numbers)
    for register, old, _ in rows:
        if state[register] != old:
            return state, f"differs {state[register]}"
    after = list(state)
    for register, _, new in rows:
        after[register] = new
    return after, f"done {len(rows)}"


def call(part, state, word, numbers):
    """The new state and the reply of a call on an object of any kind."""
    if part.kind == "cell":
        return call_cell(state, word, numbers)
    if part.kind == "queue":
        return call_queue(state, part.capacity, word, numbers)
    if part.kind == "list":
        return call_list(state, part.capacity, word, numbers)
    return call_registers(state, word, numbers)


def still(operation):
    """Whether the call alone shows that it changes no state. A `set` is never still."""
    word, numbers = operation.word, operation.numbers
    if word in ("get", "has", "read"):
        return True
    if word == "add":
        return numbers[0] == 0
    if word == "swap":
        return numbers[0] == numbers[1]
    if word == "shift":
        return numbers[2] == 0
    return word == "multi" and all(old == new for _, old, new in triples(numbers))


def loud(operation, reply):
    """Whether a call raises the tag and spoils attempts: it is not still, and its reply tells of a change."""
    return not still(operation) and reply.split(" ")[0] in ("done", "added", "removed")


# Costs and admission


def operations(task):
    return [item for item in task.body if isinstance(item, Operation)]


def cost(taskset, task):
    """The stated cost of a task: the ticks of its work, and one attempt for each operation."""
    work = sum(item.ticks for item in task.body if isinstance(item, Work))
    return work + sum(taskset.objects[item.object].attempt() for item in operations(task))


def may_change(some):
    """The objects on which one of these tasks has a call that is not still."""
    return {item.object for task in some for item in operations(task) if not still(item)}


def longest(taskset, task, changed):
    """The longest attempt of this task on one of these objects, and 0 if there is none."""
    attempts = [taskset.objects[item.object].attempt() for item in operations(task) if item.object in changed]
    return max(attempts, default=0)


def ranked(taskset):
    """The tasks in order of rank: by period or by deadline, the shorter first; ties go by file order."""
    if taskset.policy == "rm":
        return sorted(taskset.tasks, key=lambda task: task.period)
    if taskset.policy == "dm":
        return sorted(taskset.tasks, key=lambda task: task.deadline)
    return list(taskset.tasks)


def rank_charges(taskset, order, rank):
    """What a release of each higher rank can make the ranks down to this one repeat (ranks from 0).

    The preempted task is of a lower rank than the preempting one. Only ranks above its own can spoil it.
    """
    spoiled = [longest(taskset, order[k], may_change(order[:k])) for k in range(rank + 1)]
    return [max(spoiled[j + 1:]) for j in range(rank)]


def rounded_up(number, divisor):
    return -(-number // divisor)


def least_time(taskset, order, rank):
    """The least t, from 1 to the deadline, that serves the ranks down to this one; None where there is none.

    Each task is released at most ceil(t/period) times in t ticks, and at most ceil((t-1)/period) times
    strictly inside them; only the latter releases preempt.
    """
    costs = [cost(taskset, task) for task in order[:rank + 1]]
    charges = rank_charges(taskset, order, rank)
    periods = [task.period for task in order[:rank + 1]]
    for t in range(1, order[rank].deadline + 1):
        need = sum(rounded_up(t, period) * each for period, each in zip(periods, costs))
        need += sum(rounded_up(t - 1, period) * charge for period, charge in zip(periods, charges))
        if need <= t:
            return t
    return None


def fixed_test(taskset):
    """The test line under fixed priorities, a line for each rank, and the status of `admit`."""
    order = ranked(taskset)
    times = [least_time(taskset, order, rank) for rank in range(len(order))]
    lines = []
    for rank, (task, least) in enumerate(zip(order, times), 1):
        answer = "fails" if least is None else f"least {least}"
        lines.append(f"rank {rank} {task.name} {answer} deadline {task.deadline}")
    if None in times:
        return f"test no rank {times.index(None) + 1}", lines, 1
    return "test yes", lines, 0


def deadline_charge(taskset, task):
    """What a release of this task can make others repeat, under earliest deadline first.

    The preempted task has a longer deadline. Only tasks with a shorter deadline than its own can spoil it.
    """
    charges = [0]
    for other in taskset.tasks:
        if other.deadline > task.deadline:
            shorter = [third for third in taskset.tasks if third.deadline < other.deadline]
            charges.append(longest(taskset, other, may_change(shorter)))
    return max(charges)


def deadline_test(taskset):
    """The test line under earliest deadline first, and the status of `admit`.

    In each span of t ticks, the jobs that are released and due in it must need at most t. The span as long as
    the least common multiple of the periods tells whether the shares are at most the whole. Where they are, a
    span can fail only if one up to `last` does. No answer is sought where the multiple is too large, or where
    too many jobs become due up to `last`.
    """
    rows = [(task.period, task.deadline, cost(taskset, task) + deadline_charge(taskset, task))
            for task in taskset.tasks]
    common = math.lcm(*[period for period, _, _ in rows])
    if common >= WIDE:
        return "test wide", 9
    whole = sum(each * (common // period) for period, _, each in rows)
    if whole > common:
        return f"test no t {common} need {whole}", 1
    if all(period == deadline for period, deadline, _ in rows):
        return "test yes", 0
    spare = common - whole
    early = sum((period - deadline) * each * (common // period) for period, deadline, each in rows)
    last = common if spare == 0 else min(common, (early - 1) // spare)
    points = sum((last + period - deadline) // period for period, deadline, _ in rows)
    if points > POINTS_MOST:
        return f"test long {points}", 10
    return deadline_points(rows, last)


def deadline_points(rows, last):
    """Tries the spans up to the last at which a job becomes due: the need rises at no other."""
    spans = {t for period, deadline, _ in rows for t in range(deadline, last + 1, period)}
    for t in sorted(spans):
        need = sum((t + period - deadline) // period * each for period, deadline, each in rows)
        if need > t:
            return f"test no t {t} need {need}", 1
    return "test yes", 0


# The schedule


@dataclass
class Job:
    """A released job: its item (from 0), the ticks that this item or its open attempt has had so far, and the
    slot of the first of them."""

    task: int
    number: int
    due: int
    item: int = 0
    had: int = 0
    first: int = 0
    finished: bool = False


class Processor:
    """One processor, tick by tick, and the objects that its jobs share."""

    def __init__(self, taskset):
        self.taskset = taskset
        self.rank = {task.name: rank for rank, task in enumerate(ranked(taskset))}
        self.states = [first_state(part) for part in taskset.objects]
        # The slots of loud calls, for each object: their number is the object's tag.
        self.changes = [[] for _ in taskset.objects]
        # Released jobs that are not finished, the one of highest priority first.
        self.pending = []
        self.due = {}
        self.before = None
        self.lines = []
        self.counts = dict.fromkeys(COUNTS, 0)

    def name(self, job):
        return f"{self.taskset.tasks[job.task].name} {job.number}"

    def tell(self, count, line):
        self.counts[count] += 1
        self.lines.append(line)

    def key(self, job):
        """The priority of a job, the lower the higher: fixed from its release to its end."""
        if self.taskset.policy == "edf":
            return job.due, job.task, job.number
        return self.rank[self.taskset.tasks[job.task].name], job.number

    def tell_misses(self, now):
        """A miss: a job is due now, and the slots before do not finish it. It goes on all the same."""
        for job in sorted(self.due.get(now, []), key=lambda job: job.task):
            if not job.finished:
                self.tell("missed", f"{now} miss {self.name(job)}")

    def tell_releases(self, now):
        """Job k of a task is released k - 1 periods after the offset, and due its deadline later."""
        for number, task in enumerate(self.taskset.tasks):
            since = now - task.offset
            if since >= 0 and since % task.period == 0:
                job = Job(number, since // task.period + 1, now + task.deadline)
                heapq.heappush(self.pending, (self.key(job), job))
                self.due.setdefault(job.due, []).append(job)
                self.tell("released", f"{now} release {self.name(job)}")

    def slot(self, now):
        """One slot: it goes to the pending job of highest priority, and is idle where no job is pending."""
        self.tell_misses(now)
        self.tell_releases(now)
        self.counts["ticks"] += 1
        job = self.pending[0][1] if self.pending else None
        if job is None:
            self.counts["idle"] += 1
        else:
            before = self.before
            if before is not None and before is not job and not before.finished:
                self.tell("preempted", f"{now} preempt {self.name(before)} by {self.name(job)}")
            self.advance(job, now)
        self.before = job

    def advance(self, job, now):
        """A job gets one slot."""
        body = self.taskset.tasks[job.task].body
        item = body[job.item]
        if job.had == 0:
            job.first = now
        job.had += 1
        if isinstance(item, Work):
            named = (job.task, job.number, job.item + 1)
            complete = job.had == self.taskset.demands.get(named, item.ticks)
        else:
            last = job.had == self.taskset.objects[item.object].attempt()
            complete = last and self.decide(job, item, now)
        if complete:
            job.item += 1
            job.had = 0
        if job.item == len(body):
            job.finished = True
            heapq.heappop(self.pending)
            self.tell("finished", f"{now} finish {self.name(job)}")

    def decide(self, job, operation, now):
        """The last slot of an attempt: answers whether it wins.

        It loses where a loud call on the object was completed strictly between its first and its last slot.
        The operation then begins anew.
        """
        part = self.taskset.objects[operation.object]
        changes = self.changes[operation.object]
        if any(job.first < change < now for change in changes):
            expected = sum(change < job.first for change in changes)
            found = sum(change < now for change in changes)
            job.had = 0
            line = f"{now} retry {self.name(job)} {job.item + 1} {part.name} tag {expected} now {found}"
            self.tell("retries", line)
            return False
        state, reply = call(part, self.states[operation.object], operation.word, operation.numbers)
        self.states[operation.object] = state
        if loud(operation, reply):
            changes.append(now)
        text = " ".join([operation.word, part.name, *map(str, operation.numbers)])
        line = f"{now} reply {self.name(job)} {job.item + 1} {text} -> {reply} tag {len(changes)}"
        self.tell("replies", line)
        return True

    def close(self, ticks):
        """The lines after the last slot: the misses at that time, the objects, and the counts."""
        self.tell_misses(ticks)
        for part, state, changes in zip(self.taskset.objects, self.states, self.changes):
            words = ["object", part.name, part.kind, "tag", len(changes), "state", *state]
            self.lines.append(" ".join(map(str, words)))
        counts = [f"{name} {count}" for name, count in self.counts.items()]
        self.lines.append(" ".join(["total", *counts]))


# Reports


def admit(taskset):
    """The lines and the status of `admit`; under fixed priorities each rank has a line, also after a no."""
    if taskset.policy == "edf":
        line, status = deadline_test(taskset)
        return [line], status
    line, ranks, status = fixed_test(taskset)
    return [line, *ranks], status


def run(taskset, ticks):
    """The lines and the status of `run`: the answer of the test is told, and does not count; a miss does."""
    lines, _ = admit(taskset)
    processor = Processor(taskset)
    for now in range(ticks):
        processor.slot(now)
    processor.close(ticks)
    return lines[:1] + processor.lines, 1 if processor.counts["missed"] else 0


def report(text, words):
    """The standard output and exit status of `rtx` with these words, `run N` or `admit`, on a valid file."""
    taskset = read_set(text)
    if words == ["admit"]:
        lines, status = admit(taskset)
    else:
        name, ticks = words
        if name != "run":
            raise ValueError(f"no report of {name}")
        lines, status = run(taskset, int(ticks))
    return "".join(line + "\n" for line in lines).encode(), status


if __name__ == "__main__":
    written, code = report(sys.stdin.buffer.read(), sys.argv[1:])
    sys.stdout.buffer.write(written)
    sys.exit(code)
