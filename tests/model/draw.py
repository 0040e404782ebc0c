"""Valid random task files, one for each number, made so that attempts are often spoiled and replies vary.

`draw(number)` answers the file and the ticks to run it for, which are the same at each call.
`draw.py NUMBER` writes one file; its first line tells the ticks.
"""

import random
import sys

CELL_MOST = 2**24 - 1
NUMBER_MOST = 2**32 - 1
OBJECTS = [0, 1, 1, 1, 1, 1, 1, 1, 1, 2, 2, 2, 2, 3, 3, 4]
TASKS = [1, 2, 3, 3, 4, 4, 5, 5, 6, 6]
ITEMS = [1, 1, 1, 1, 2, 2, 3, 5]
LONG_PERIODS = [999_961, 999_979, 999_983, 999_991, 999_997, 999_999, 1_000_000]


class Drawing:
    """The draws of one file: objects as (name, kind, capacity), tasks as rows of the file with their items as
    lists of words, and demands as rows of the file."""

    def __init__(self, number):
        self.random = random.Random(number)
        self.policy = self.random.choice(["rm", "dm", "edf"])
        self.ticks = self.random.randint(200, 600)
        self.objects = [self.draw_object(at) for at in range(self.random.choice(OBJECTS))]
        self.tasks = self.draw_tasks()
        self.demands = self.draw_demands()

    def chance(self, share):
        return self.random.random() < share

    def small(self):
        """A number of a call, so small that the calls of a file often meet one another's numbers."""
        return self.random.choice([0, 0, 1, 1, 2, 3])

    def number(self, most):
        """As `small`, and now and then near the greatest number, so that sums pass it."""
        return most - self.random.randint(0, 1) if self.chance(0.08) else self.small()

    # Objects and their calls

    def draw_object(self, at):
        name = self.random.choice([f"o{at}", f"Shared_object_{at}", f"t{at + 1}"])
        kind = self.random.choice(["cell", "queue", "list", "registers"])
        capacity = self.random.choice([1, 1, 1, 2, 2, 3, 4, 5, 6, 7, 8])
        return name, kind, 1 if kind == "cell" else capacity

    def cell_calls(self):
        word = self.random.choice(["get", "set", "add", "add", "swap"])
        if word == "get":
            return [[word]]
        if word == "swap":
            return [[word, self.small(), self.number(CELL_MOST)]]
        return [[word, self.number(CELL_MOST)]]

    def queue_calls(self):
        return [["take"] if self.chance(0.5) else ["put", self.small()]]

    def list_calls(self, capacity):
        key = self.random.choice([0, 1, 2, 3, capacity])
        if self.chance(0.5):
            return [["insert", key], ["remove", key]]
        return [[self.random.choice(["insert", "insert", "remove", "has"]), key]]

    def registers_calls(self, capacity):
        word = self.random.choice(["read", "shift", "multi", "back", "back", "back"])
        if word == "read":
            return [[word, self.random.randrange(capacity)]]
        if word == "shift" and capacity > 1:
            return [[word, *self.random.sample(range(capacity), 2), self.random.choice([0, 1, 1, 2])]]
        count = min(capacity, self.random.choice([1, 1, 1, 1, 2, 2, 3, 4]))
        rows = [(register, self.random.choice([0, 0, 0, 1]), self.random.choice([0, 1, 1, 2, NUMBER_MOST]))
                for register in self.random.sample(range(capacity), count)]
        there = ["multi", *(number for row in rows for number in row)]
        back = ["multi", *(number for register, old, new in rows for number in (register, new, old))]
        if word != "back":
            return [there]
        between = [["shift", rows[0][0], rows[1][0], 1]] if count > 1 else []
        return [there, *between, back]

    def operations(self):
        """One call on an object, or a few of which the last undoes the first; each with its attempt's ticks.

        Most are on the first object.
        """
        name, kind, capacity = self.objects[0] if self.chance(0.6) else self.random.choice(self.objects)
        if kind == "cell":
            calls = self.cell_calls()
        elif kind == "queue":
            calls = self.queue_calls()
        else:
            calls = self.list_calls(capacity) if kind == "list" else self.registers_calls(capacity)
        ticks = 2 if kind == "cell" else 2 * capacity + 6
        return [([word, name, *numbers], ticks) for word, *numbers in calls]

    # Tasks

    def items(self):
        if self.objects and self.chance(0.85):
            return self.operations()
        ticks = self.random.choice([1, 2, 3, 5, 8])
        return [(["work", ticks], ticks)]

    def body(self):
        """The items of a body, and the ticks that they need if nobody preempts."""
        items = []
        for _ in range(self.random.choice(ITEMS)):
            items += self.items()
        return [words for words, _ in items], sum(ticks for _, ticks in items)

    def task(self, number, period, deadline, body):
        offset = self.random.choice([0, self.small(), self.random.randint(0, 60)])
        return {"name": f"t{number}", "period": period, "deadline": deadline, "offset": offset, "body": body}

    def draw_tasks(self):
        if self.policy == "edf" and self.chance(0.2):
            return self.random.choice([self.rare_tasks, self.full_tasks])()
        return self.usual_tasks()

    def usual_tasks(self):
        """Tasks with random shares of the processor, whose sum is below or above the whole."""
        whole = self.random.uniform(0.3, 1.1 if self.policy == "edf" else 1.4)
        shares = [self.random.uniform(0.2, 1) for _ in range(self.random.choice(TASKS))]
        tasks = []
        for number, share in enumerate(shares, 1):
            body, need = self.body()
            period = min(250, max(1, round(need * sum(shares) / (whole * share))))
            deadline = period
            if self.chance(0.1 if self.policy == "rm" else 0.6):
                deadline = self.random.randint(min(need, period), period)
            tasks.append(self.task(number, period, deadline, body))
        return tasks

    def rare_tasks(self):
        """Tasks of one job each, whose periods have a large common multiple."""
        periods = self.random.sample(LONG_PERIODS, self.random.randint(4, 6))
        return [self.task(number, period, self.random.choice([period, 600]), self.body()[0])
                for number, period in enumerate(periods, 1)]

    def full_tasks(self):
        """Three tasks that only work, whose shares are one half and two quarters."""
        half = self.random.randint(1, 10)
        tasks = [self.task(1, 2 * half, self.random.randint(half, 2 * half), [["work", half]])]
        most = self.random.choice([5, 50, 250_000, 250_000])
        for number in (2, 3):
            quarter = self.random.randint(1, most)
            tasks.append(self.task(number, 4 * quarter, 4 * quarter, [["work", quarter]]))
        return tasks

    def draw_demands(self):
        """Other ticks for some work items of early jobs, fewer than the stated ones or more."""
        rows = {}
        works = [(task, at, words[1]) for task in self.tasks for at, words in enumerate(task["body"], 1)
                 if words[0] == "work"]
        for _ in range(self.random.choice([0, 0, 1, 2, 4, 8]) if works else 0):
            task, item, ticks = self.random.choice(works)
            job = self.random.randint(1, self.ticks // task["period"] + 2)
            row = {"task": task["name"], "job": job, "item": item}
            rows[tuple(row.values())] = {**row, "ticks": self.random.randint(1, 2 * ticks + 2)}
        return list(rows.values())

    # The text

    def item_text(self, words):
        """An item as a string of the file: now and then with more spaces and leading zeros than it needs."""
        pieces = [str(word) for word in words]
        if self.chance(0.1):
            pieces = [piece.rjust(self.random.randint(1, 10), "0") if piece.isdigit() else piece
                      for piece in pieces]
        space = " " * self.random.choice([1] * 9 + [2])
        edge = self.random.choice([""] * 9 + [" "])
        return f'"{edge}{space.join(pieces)}{edge}"'

    def value_text(self, value):
        if isinstance(value, list):
            return "[" + ", ".join(self.item_text(words) for words in value) + "]"
        return f'"{value}"' if isinstance(value, str) else str(value)

    def sections(self):
        """The arrays of the file as rows of key and value, without the keys that may be left out."""
        objects = []
        for name, kind, capacity in self.objects:
            row = {"name": name, "kind": kind}
            objects.append(row if kind == "cell" else {**row, "capacity": capacity})
        tasks = []
        for task in self.tasks:
            spare = [key for key, value in (("deadline", task["period"]), ("offset", 0))
                     if task[key] == value and self.chance(0.7)]
            tasks.append({key: value for key, value in task.items() if key not in spare})
        return {"object": objects, "task": tasks, "demand": self.demands}

    def row_text(self, row, equals, between):
        pairs = list(row.items())
        if self.chance(0.3):
            self.random.shuffle(pairs)
        return between.join(f"{key}{equals}{self.value_text(value)}" for key, value in pairs)

    def text(self):
        """The file, as tables with headers or as arrays of inline tables."""
        lines = [f"# run {self.ticks}"]
        if self.policy != "rm" or self.chance(0.5):
            lines.append(f'policy = "{self.policy}"')
        inline = self.chance(0.3)
        for section, rows in self.sections().items():
            if inline and rows:
                tables = ["{" + self.row_text(row, "=", ", ") + "}" for row in rows]
                lines.append(f"{section} = [{', '.join(tables)}]")
            elif rows:
                lines += [f"\n[[{section}]]\n{self.row_text(row, ' = ', chr(10))}" for row in rows]
        return "".join(line + "\n" for line in lines)


def draw(number):
    """The file of this number, and the ticks to run it for."""
    drawing = Drawing(number)
    return drawing.text().encode(), drawing.ticks


if __name__ == "__main__":
    sys.stdout.buffer.write(draw(int(sys.argv[1]))[0])
