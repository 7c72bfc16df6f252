"""Wrong outputs, each of which the judge must tell: a run in which one thing is changed."""
import json

from model.values import digest


def text_of(told):
    return json.dumps(told, separators=(",", ":"), ensure_ascii=False, sort_keys=True).encode() + b"\n"


class Told:
    """Replies with their audit, one of which is to be changed: which one, a number says. Whether no choice of homes is hidden, and whether
    it is known which steps stand."""

    def __init__(self, row, talk, audit, at):
        refused = [line for line, _, text in talk if b'"NoMemory"' in text]
        self.row, self.talk, self.audit, self.at = row, talk, json.loads(audit), at
        self.is_exact, self.is_settled = row.has_one_home(), all(map(row.is_in_one_step, refused))

    def changed(self, change):
        """With one reply changed, the one at the place among those that can be; nothing where none can."""
        found = [(at, new) for at, (_, asked, text) in enumerate(self.talk) if (new := change(asked, json.loads(text)))]
        if not found:
            return None
        at, new = found[self.at % len(found)]
        line, asked, _ = self.talk[at]
        return [*self.talk[:at], (line, asked, text_of(new)), *self.talk[at + 1:]], text_of(self.audit)

    def audited(self, merged, places):
        return self.talk, text_of({"Merged": merged, "Places": places})


def message_is_lost(told):
    places = told.audit["Places"]
    at = told.at % len(places) if places else 0
    return told.audited(told.audit["Merged"], places[:at] + places[at + 1:]) if places else None


def message_is_listed_twice(told):
    places = told.audit["Places"]
    at = told.at % len(places) if places else 0
    return told.audited(told.audit["Merged"], places[:at] + places[at:at + 1] + places[at:]) if places else None


def message_is_said_to_be_dropped(told):
    places = told.audit["Places"]
    if not places or any(b"dropped" in text for _, _, text in told.talk):
        return None
    at = told.at % len(places)
    return told.audited(told.audit["Merged"], [*places[:at], [places[at][0], "dropped"], *places[at + 1:]])


def event_is_lost(told):
    merged = told.audit["Merged"]
    at = told.at % len(merged) if merged else 0
    return told.audited(merged[:at] + merged[at + 1:], told.audit["Places"]) if merged and told.is_settled else None


def sent_id_is_another(told):
    def change(_, reply):
        if "MessageId" not in reply:
            return None
        front, last = reply["MessageId"].rsplit("-", 1)
        return {**reply, "MessageId": f"{front}-{int(last, 16) + 1:012x}"}
    return told.changed(change)


def given_twice(told):
    return told.changed(lambda _, reply: {"Messages": [*reply["Messages"], reply["Messages"][0]]} if reply.get("Messages") else None)


def not_given(told):
    def change(_, reply):
        return {"Messages": reply["Messages"][1:]} if len(reply.get("Messages", [])) > (not told.is_exact) else None
    return told.changed(change)


def other_body(told):
    def change(_, reply):
        if not reply.get("Messages"):
            return None
        first, *others = reply["Messages"]
        return {"Messages": [{**first, "Body": first["Body"] + "!", "MD5OfBody": digest(first["Body"] + "!")}, *others]}
    return told.changed(change)


def other_handle(told):
    def change(_, reply):
        if not reply.get("Messages"):
            return None
        first, *others = reply["Messages"]
        front, count = first["ReceiptHandle"].rsplit("-", 1)
        return {"Messages": [{**first, "ReceiptHandle": f"{front}-{int(count, 16) + 1:08x}"}, *others]}
    return told.changed(change)


def number_of_another_refusal(told):
    def change(_, reply):
        return {"Error": {**reply["Error"], "Number": reply["Error"]["Number"] + 1}} if "Error" in reply else None
    return told.changed(change)


def refusal_of_another_name(told):
    def change(_, reply):
        return {"Error": {"Code": "Worn", "Number": 3}} if reply.get("Error", {}).get("Code") == "NoMemory" else None
    return told.changed(change)


def refused_entry_has_another_id(told):
    def change(_, reply):
        out = [it for it in reply.get("Failed", []) if it["Code"] == "NoMemory"]
        return {**reply, "Failed": [{**it, "Id": it["Id"] + "_"} if it in out else it for it in reply["Failed"]]} if out else None
    return told.changed(change)


def refused_entry_is_the_senders_fault(told):
    def change(_, reply):
        failed = reply.get("Failed")
        return {**reply, "Failed": [{**it, "SenderFault": not it["SenderFault"]} for it in failed]} if failed else None
    return told.changed(change)


def turn_did_nothing(told):
    def change(_, reply):
        return {"Turn": "nothing"} if reply.get("Turn") in ("left", "entered", "turned", "back", "dropped") and told.is_exact else None
    return told.changed(change)


def far_more_are_counted(told):
    name = "ApproximateNumberOfMessages"

    def change(_, reply):
        counts = reply.get("Attributes", {})
        return {"Attributes": {**counts, name: str(int(counts[name]) + 1000)}} if name in counts else None
    return told.changed(change)


def queue_is_listed_that_is_none(told):
    return told.changed(lambda _, reply: {"QueueUrls": [*reply["QueueUrls"], "http://localhost/000000000000/none"]} if "QueueUrls" in reply else None)


def done_all_the_same(told):
    """The row as if a line that was refused had been done, if that is an event."""
    row, refused = told.row, next((at for at, (_, _, text) in enumerate(told.talk) if text.startswith(b'{"Error":{"Code":"NoMemory"')), None)
    if refused is None or not told.is_exact or not row.judge.has_event(refused):
        return None
    return [told.talk[at] if at == refused else (at, row.asked[at], row.replies[at]) for at in range(len(row.asked))], row.replies[-1]


PLANTS = [done_all_the_same, message_is_lost, message_is_listed_twice, message_is_said_to_be_dropped, event_is_lost, sent_id_is_another,
          given_twice, not_given, other_body, other_handle, number_of_another_refusal, refusal_of_another_name, refused_entry_has_another_id,
          refused_entry_is_the_senders_fault, turn_did_nothing, far_more_are_counted, queue_is_listed_that_is_none]


def planted(row, talk, audit, number):
    """One wrong output that can be made of a run, the first from a number on, with its name."""
    told = Told(row, talk, audit, number // len(PLANTS))
    for at in range(len(PLANTS)):
        plant = PLANTS[(number + at) % len(PLANTS)]
        made = plant(told)
        if made:
            return plant.__name__, made
    return None, None
