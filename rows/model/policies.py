"""The attributes of a queue, and its policies."""
import json
import re

from model.values import ARN, Unread, named_by_arn

RANGES = {"DelaySeconds": (0, 900), "MessageRetentionPeriod": (60, 1_209_600), "ReceiveMessageWaitTimeSeconds": (0, 20),
          "VisibilityTimeout": (0, 43_200)}


def number_of(given, least, most):
    """A number of an attribute, which is a whole number or a text of digits, in its range."""
    is_whole = isinstance(given, int) and not isinstance(given, bool)
    if not is_whole and not re.fullmatch("[0-9]{1,20}", given):
        raise Unread("a number")
    if not least <= int(given) <= most:
        raise Unread("a range")
    return int(given)


def read_attributes(given):
    """The attributes of a line: numbers, and policies as they are printed."""
    found = {}
    for name, value in given.items():
        if name in RANGES:
            found[name] = number_of(value, *RANGES[name])
            continue
        policy = json.loads(value) if value else None
        if name == "RedrivePolicy":
            found[name] = policy and (named_by_arn(policy["deadLetterTargetArn"]), number_of(policy["maxReceiveCount"], 1, 1_000))
        else:
            found[name] = policy and (policy["redrivePermission"], tuple(map(named_by_arn, policy.get("sourceQueueArns") or ())))
    return found


def redrive_text(policy):
    return policy and '{"deadLetterTargetArn":"%s","maxReceiveCount":%d}' % (ARN + policy[0], policy[1])


def allow_text(policy):
    if not policy:
        return None
    sources = ',"sourceQueueArns":[%s]' % ",".join(f'"{ARN}{it}"' for it in policy[1]) if policy[1] else ""
    return '{"redrivePermission":"%s"%s}' % (policy[0], sources)


def permits(queue, name):
    return queue.allow is None or queue.allow[0] == "allowAll" or (queue.allow[0] == "byQueue" and name in queue.allow[1])


def may_have(state, name, given):
    """Whether the target of a policy that is given is there, is another queue, and permits it."""
    policy = given.get("RedrivePolicy")
    if not policy:
        return True
    target = state.queues.get(policy[0])
    return policy[0] != name and target is not None and permits(target, name)


def agrees(queue, given):
    """Whether each attribute that is given is the queue's."""
    have = {**dict(queue.attributes), "RedrivePolicy": queue.redrive, "RedriveAllowPolicy": queue.allow}
    return all(have[it] == value for it, value in given.items())


def with_attributes(state, queue, given):
    """A queue with the attributes that are given, and the next version."""
    numbers = tuple((it, given.get(it, number)) for it, number in queue.attributes)
    redrive, target = queue.redrive, queue.target
    if "RedrivePolicy" in given:
        redrive = given["RedrivePolicy"]
        target = state.queues[redrive[0]].number if redrive else None
    return queue._replace(attributes=numbers, redrive=redrive, target=target, allow=given.get("RedriveAllowPolicy", queue.allow), version=queue.version + 1)
