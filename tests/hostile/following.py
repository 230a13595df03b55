"""What may be replied to a plan in which one request meets a fault, and what a store may hold then."""

NO_MEMORY = "refused 509 NoMemory"
DEVICE_FAILED = "refused 507 DeviceFailed"
REOPEN = "refused 508 Reopen"
CHANGES = ("load", "call", "discard")


class Wrong(Exception):
    """A reply that the rules do not have."""


def follow(plan, replies, faults):
    """The conditions, each with its number, in which a store may be found after these replies, of which one may be
    one of these faults."""
    now = plan.first()
    found, fault, lost = [now], None, False
    for index, (letter, reply) in enumerate(zip(plan.order, replies)):
        wanted, *after = plan.reply(*now, letter)
        if lost and plan.text(letter) != "seq":
            wanted, after = plan.refused(letter, REOPEN), now
        if reply == wanted:
            now = tuple(after)
            found = found if lost else [now]
        elif fault is None and (refusal := fault_in(plan, letter, reply, faults)):
            fault, lost = index, refusal == DEVICE_FAILED
            found = [now, tuple(after)] if lost else [now]
        elif fault is not None and not lost and reply == plan.refused(letter, REOPEN) and may_be_lost(plan, fault, index):
            lost = True
        else:
            raise Wrong(f"{plan.text(letter).splitlines()[0]}: {reply}, wanted {wanted}")
    return found


def fault_in(plan, letter, reply, faults):
    """Which of these faults is the reply to a request, or to each of a batch, if it may fail so."""
    refusals = [it for it in faults if reply == plan.refused(letter, it)]
    return next((it for it in refusals if can_fail(plan.text(letter), it)), None)


def can_fail(request, refusal):
    """Whether a request takes memory, or calls a device."""
    verb = request.split()[0]
    return verb in (*CHANGES, "snapshot", "batch") or (verb == "object" and refusal == NO_MEMORY)


def may_be_lost(plan, index, at):
    """Whether a request that was refused memory, at this index, may be why the one at the other index is not
    looked at: it changes the state, and those between say nothing of it."""
    between = {plan.text(it) for it in plan.order[index + 1 : at]}
    verbs = {plan.requests[it].split()[0] for it in plan.parts(plan.order[index])}
    return bool(verbs & set(CHANGES)) and between <= {"seq"}


def wanted_of(plan, letters, now):
    """The replies to these requests from a condition on."""
    replies = []
    for letter in letters:
        reply, *now = plan.reply(*now, letter)
        replies.append(reply)
    return replies
