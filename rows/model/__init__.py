"""The queue of docs/model.md and docs/formats.md once more, as the states that some replies leave: slow, and apart from the program."""
from model.messages import Messages
from model.moves import Moves
from model.queues import Queues
from model.values import CLOSED, Unread, id_text


class Model(Queues, Messages, Moves):
    """All that may come of lines and their replies. Where a reply is NoMemory, the first steps of its line may stand, and its last does not."""

    ACTIONS = {
        "CreateQueue": Queues.create, "GetQueueUrl": Queues.url, "ListQueues": Queues.list_queues,
        "SetQueueAttributes": Queues.set_attributes, "GetQueueAttributes": Queues.attributes, "PurgeQueue": Queues.purge,
        "DeleteQueue": Queues.delete_queue, "ListDeadLetterSourceQueues": Queues.sources, "SendMessage": Messages.send,
        "ReceiveMessage": Messages.receive, "DeleteMessage": Messages.delete, "ChangeMessageVisibility": Messages.change,
        "SendMessageBatch": Messages.send_batch, "DeleteMessageBatch": Messages.delete_batch, "ChangeMessageVisibilityBatch": Messages.change_batch,
        "StartMessageMoveTask": Moves.start, "CancelMessageMoveTask": Moves.cancel, "ListMessageMoveTasks": Moves.list_tasks,
        "DeadTurn": Moves.dead_turn, "EnterTurn": Moves.enter_turn, "TaskTurn": Moves.task_turn}

    def after(self, states, asked, reply):
        """The states in which this reply leaves some states, none where it is a wrong one."""
        found = [it for state in states for it in self.after_one(state, asked, reply)]
        return found if len(found) <= len(states) else list({it.key(): it for it in found}.values())

    def after_one(self, state, asked, reply):
        action = self.ACTIONS.get(asked.get("Action"))
        if action is None:
            raise Unread("an action")
        if reply.is_out:
            yield state.copy()
        state = state.copy()
        state.now = asked.get("Now", state.now)
        yield from action(self, state, asked.get("Actor", 0), asked, reply)

    def is_audit(self, state, told):
        """Whether an audit is that of a state."""
        if set(told) != {"Merged", "Places"}:
            return False
        if self.is_exact and told["Merged"] != [f"{it[0]}.{it[1]}" for it in sorted(state.events)]:
            return False
        stamps = [tuple(map(int, it.split("."))) for it in told["Merged"]]
        if stamps != sorted(stamps) or not state.least <= len(stamps) <= state.most:
            return False
        places = self.places(state)
        listed = dict(map(tuple, told["Places"]))
        return [it[0] for it in told["Places"]] == sorted(places) and all(place in places[it] for it, place in listed.items())

    def places(self, state):
        """Where each message that was sent may be. At several homes it is not known which were asked, and let go of what has expired."""
        found = {it: {place} for it, place in state.gone.items()}
        latest = max([it[0] for it in state.last.values()], default=0)
        for home in state.homes.values():
            for row in home.rows if home != CLOSED else ():
                is_late = not self.is_exact and row.enqueued + home.settings.retention * 1000 <= latest
                found[row.lineage] = {"home", "expired"} if is_late else {"home"}
        found.update({it.row.lineage: {"transit"} for it in state.items})
        return {id_text(it): found[it] for it in state.sent}
