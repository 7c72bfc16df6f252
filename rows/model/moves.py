"""Move tasks, and the turns that move messages between queues."""
from model.steps import Steps
from model.values import ARN, CLOSED, LATEST, Item, Task, Walk, is_active, named, named_by_arn, same, same_word, task_number


class Moves(Steps):
    """Actions on tasks, and turns."""

    def start(self, state, actor, asked, reply):
        """A task is started, once it is read whether messages may move between its queues."""
        if reply.is_out:
            yield state.copy()
        self.read(state, actor, "directory")
        if reply.is_out:
            yield state
            return
        source = state.queues.get(named_by_arn(asked["SourceArn"]))
        destination = state.queues.get(named_by_arn(asked["DestinationArn"])) if "DestinationArn" in asked else None
        stamp = self.stamp(state, actor, "ledger")
        refusal = "ResourceNotFoundException" if not source or ("DestinationArn" in asked and not destination) else self.start_refusal(state, source, stamp)
        if refusal:
            yield from same(state, reply, refusal)
            return
        number = len(state.tasks) + 1
        if reply.told == {"TaskHandle": f"task-{number:016x}"}:
            ends = (source.number, source.name), (destination.number, destination.name) if destination else None
            state.tasks[number] = Task(number, *ends, asked.get("MaxNumberOfMessagesPerSecond"), stamp[0], "RUNNING", None, 0, 0, 0, 0)
            self.commit(state, actor, stamp, "ledger")
            yield state

    @staticmethod
    def start_refusal(state, source, stamp):
        """The first check of a start that fails, of queues that are there."""
        active = [it for it in state.tasks.values() if is_active(it)]
        if not any(it.target == source.number for it in state.queues.values()):
            return "UnsupportedOperation"
        if stamp is None:
            return "ClockRange"
        if any(it.source[0] == source.number for it in active):
            return "UnsupportedOperation"
        return "OverLimit" if len(active) >= 100 else None

    def cancel(self, state, actor, asked, reply):
        if reply.is_out:
            yield state
            return
        number = task_number(asked["TaskHandle"])
        stamp, task = self.stamp(state, actor, "ledger"), state.tasks.get(number)
        refusal = "ClockRange" if stamp is None and number is not None else None if task else "ResourceNotFoundException"
        refusal = refusal or (None if task.status == "RUNNING" else "UnsupportedOperation")
        if refusal:
            yield from same(state, reply, refusal)
        elif reply.told == {"ApproximateNumberOfMessagesMoved": task.moved}:
            state.tasks[number] = task._replace(status="CANCELLING")
            self.commit(state, actor, stamp, "ledger")
            yield state

    def list_tasks(self, state, actor, asked, reply):
        if reply.is_out:
            yield state.copy()
        queue = self.by_name(state, actor, named_by_arn(asked["SourceArn"]))
        if reply.is_out:
            yield state
            return
        stamp = self.stamp(state, actor, "ledger")
        refusal = "ResourceNotFoundException" if not queue else "ClockRange" if stamp is None else None
        if refusal:
            yield from same(state, reply, refusal)
            return
        tasks = [it for it in reversed(state.tasks.values()) if it.source[0] == queue.number][:asked.get("MaxResults", 1)]
        if reply.told == {"Results": [task_told(it) for it in tasks]}:
            self.commit(state, actor, stamp, "ledger")
            yield state

    def dead_turn(self, state, actor, asked, reply):
        if reply.is_out:
            yield state.copy()
        queue = self.by_name(state, actor, named(asked))
        if reply.is_out:
            yield state
        elif not queue:
            yield from same(state, reply, "QueueDoesNotExist")
        elif state.now >= LATEST:
            yield from same(state, reply, "ClockRange")
        else:
            for key in self.keys(queue.number):
                yield from self.leave_dead(state, actor, queue, key, reply)

    def leave_dead(self, state, actor, queue, key, reply):
        """Any dead row of a home leaves it."""
        home, stamp = state.homes.get(key), self.stamp(state, actor, key, "ledger")
        if home in (None, CLOSED):
            yield from same(state, reply, "QueueDoesNotExist")
            return
        rows = self.kept(home, stamp[0])
        dead = [it for it in rows if self.is_dead(home, it, stamp[0])]
        word = "nothing" if not dead else "full" if len(state.items) >= self.transit else "left"
        if reply.told != {"Turn": word}:
            return
        for row in dead if word == "left" else ():
            after = state.copy()
            self.take(after, key, home, rows, row, Item(after.next_item, row, queue.number, home.settings.target, None, False))
            self.commit(after, actor, stamp, key, "ledger")
            yield after
        if word != "left":
            yield state

    def take(self, state, key, home, rows, row, item):
        """A row leaves its home, and is in transit."""
        self.put(state, key, home, rows)
        state.homes[key] = home._replace(rows=tuple(it for it in rows if it is not row))
        state.items += (item,)
        state.next_item += 1

    def enter_turn(self, state, actor, asked, reply):
        """The item after the one that the actor tried last is tried, whatever is answered then."""
        if reply.is_out:
            yield state.copy()
        self.read(state, actor, "ledger")
        if reply.is_out:
            yield state.copy()
        tried = state.tried.get(actor, 0)
        item = next((it for it in state.items if it.number > tried), state.items[0] if state.items else None)
        if item is None:
            yield from same_word(state, reply, "nothing")
            return
        state.tried[actor] = item.number
        if reply.is_out:
            yield state
        elif state.now >= LATEST:
            yield from same(state, reply, "ClockRange")
        else:
            for key in self.keys(item.source if item.homeward else item.target):
                yield from self.bring(state.copy(), actor, item, key, reply)

    def bring(self, state, actor, item, key, reply):
        """An item comes in at a home, or is sent back or dropped where that is closed."""
        home, stamp = state.homes.get(key), self.stamp(state, actor, key, "ledger")
        if home is None:
            yield from same_word(state, reply, "full")
            return
        rows = () if home == CLOSED else self.kept(home, stamp[0])
        if home == CLOSED:
            word = "dropped" if item.homeward else "turned"
        else:
            word = "full" if len(rows) >= self.rows else "back" if item.homeward else "entered"
        if reply.told != {"Turn": word}:
            return
        if word in ("back", "entered"):
            row = came_back(item.row, home.next, stamp[0]) if item.homeward else came_in(item, key, home.next, stamp[0])
            self.put(state, key, home, rows + (row,), next=home.next + 1)
        if word != "full":
            self.move_on(state, item, word)
            self.commit(state, actor, stamp, key, "ledger")
        yield state

    def move_on(self, state, item, word):
        """What an item's word makes of the ledger."""
        task = state.tasks.get(item.task)
        if word == "turned":
            state.items = tuple(it._replace(homeward=True) if it is item else it for it in state.items)
            if task and is_active(task):
                state.tasks[task.number] = task._replace(status="FAILED", reason="DestinationClosed")
            return
        state.items = tuple(it for it in state.items if it is not item)
        if word == "dropped":
            state.gone[item.row.lineage] = "dropped"
        if task and word == "entered":
            state.tasks[task.number] = task._replace(moved=task.moved + 1)

    def task_turn(self, state, actor, asked, reply):
        number = task_number(asked["TaskHandle"])
        if number is None:
            if reply.is_out:
                yield state
            yield from same(state, reply, "ResourceNotFoundException")
            return
        if reply.is_out:
            yield state.copy()
        self.read(state, actor, "ledger")
        if reply.is_out:
            yield state.copy()
        task, walk = state.tasks.get(number), state.walks.get(actor)
        if task or reply.is_out:
            # A walk begins anew where another task is named.
            walk = state.walks[actor] = walk if walk and walk.task == number else Walk(number, 0, 0)
        if reply.is_out:
            yield state
        elif not task:
            yield from same(state, reply, "ResourceNotFoundException")
        elif not is_active(task):
            yield from same_word(state, reply, "ended")
        elif task.status == "RUNNING" and walk.nothings < self.homes:
            yield from self.leave_for(state, actor, task, walk, reply)
        else:
            yield from self.finish(state, actor, task, walk, reply)

    def finish(self, state, actor, task, walk, reply):
        """A task ends, or waits for its items."""
        stamp = self.stamp(state, actor, "ledger")
        if stamp is None:
            yield from same(state, reply, "ClockRange")
        elif any(it.task == task.number for it in state.items):
            state.walks[actor] = walk._replace(nothings=0)
            yield from same_word(state, reply, "waiting")
        elif reply.told == {"Turn": "finished"}:
            state.tasks[task.number] = task._replace(status={"RUNNING": "COMPLETED", "CANCELLING": "CANCELLED"}[task.status])
            self.commit(state, actor, stamp, "ledger")
            yield state

    def leave_for(self, state, actor, task, walk, reply):
        """A message leaves the home of the walk for a task."""
        key = (task.source[0], walk.home)
        home, stamp = state.homes.get(key), self.stamp(state, actor, key, "ledger")
        if stamp is None:
            yield from same(state, reply, "ClockRange")
            return
        onward = Walk(walk.task, (walk.home + 1) % self.homes, 0)
        if home is None:
            state.walks[actor] = onward
            yield from same(state, reply, "QueueDoesNotExist")
            return
        if home == CLOSED:
            state.walks[actor] = onward
            yield from self.fail(state, actor, task, key, stamp, "SourceClosed", reply)
            return
        second = stamp[0] // 1000
        in_second = task.in_second if task.second == second else 0
        if in_second >= (500 if task.rate is None else task.rate):
            yield from same_word(state, reply, "throttled")
            return
        rows = self.kept(home, stamp[0])
        live = [it for it in rows if self.is_live(home, it, stamp[0])]
        state.walks[actor] = onward if live else onward._replace(nothings=walk.nothings + 1)
        if live and len(state.items) >= self.transit:
            yield from same_word(state, reply, "full")
        elif live:
            task = task._replace(left=task.left + 1, second=second, in_second=in_second + 1)
            yield from self.leave_live(state, actor, task, key, stamp, rows, live, reply)
        elif reply.told == {"Turn": "nothing"}:
            self.put(state, key, home, rows)
            self.commit(state, actor, stamp, key, "ledger")
            yield state

    def leave_live(self, state, actor, task, key, stamp, rows, live, reply):
        """Any of the live rows leaves for the task, as it is then; the task fails if that row has no queue to go to."""
        for row in live:
            after, target = state.copy(), task.destination[0] if task.destination else row.origin
            if target is None:
                self.put(after, key, state.homes[key], rows)
                yield from self.fail(after, actor, state.tasks[task.number], key, stamp, "CouldNotDetermineMessageSource", reply)
            elif reply.told == {"Turn": "left"}:
                self.take(after, key, state.homes[key], rows, row, Item(after.next_item, row, key[0], target, task.number, False))
                after.tasks[task.number] = task
                self.commit(after, actor, stamp, key, "ledger")
                yield after

    def fail(self, state, actor, task, key, stamp, reason, reply):
        if reply.told == {"Turn": "failed"}:
            state.tasks[task.number] = task._replace(status="FAILED", reason=reason)
            self.commit(state, actor, stamp, key, "ledger")
            yield state


def task_told(task):
    """A task as a list of tasks tells it."""
    told = {"ApproximateNumberOfMessagesMoved": task.moved, "SourceArn": ARN + task.source[1], "StartedTimestamp": task.started, "Status": task.status}
    if task.destination:
        told["DestinationArn"] = ARN + task.destination[1]
    if task.rate is not None:
        told["MaxNumberOfMessagesPerSecond"] = task.rate
    if task.reason:
        told["FailureReason"] = task.reason
    if task.status == "RUNNING":
        told["TaskHandle"] = f"task-{task.number:016x}"
    return told


def came_in(item, key, serial, moment):
    """A row that comes in at its target."""
    row = item.row._replace(serial=serial, slot=None, visible=moment, receives=0, last=None)
    if item.task is None:
        return row._replace(origin=item.source)
    return row._replace(id=(key[0], key[1], serial), enqueued=moment, origin=None)


def came_back(row, serial, moment):
    return row._replace(serial=serial, slot=None, visible=moment, receives=0, last=None)
