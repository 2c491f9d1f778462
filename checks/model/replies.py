"""What each service call may answer a task and a handler: what random systems should have shown."""

from common.services import SERVICES
from model.services import FOR_ALL, FOR_HANDLERS, STOPPING_CALLS, UNDER_CPU_LOCK, WAITING_CALLS
from model.versions import NEWEST

# The replies of each call, beside E_CTX.
REPLIES = {service.name: service.replies for service in SERVICES}

# What the generator is made to bring about, beside replies.
SITUATIONS = (
    "a cyclic handler is due that is pending already",
    "a handler ends with a fault",
    "a handler releases a task of a processor that is locked",
    "a handler releases a task of another processor",
    "a handler's stretch is cut short",
    "a handler waits for a lock to be freed",
    "a ready queue of another processor is rotated",
    "a spin lock is asked for that another processor holds",
    "a start takes a stored processor",
    "a start takes a stored processor, and activations stay queued",
    "a stretch is cut short",
    "a stretch that was cut short comes to a held spin lock",
    "a stretch that was cut short ends with a fault",
    "a suspended task is released",
    "a task ends with a fault under a spin lock",
    "a task ends with its processor locked",
    "a task is preempted whose stretch was cut short",
    "a task is suspended whose stretch was cut short",
    "a task is terminated whose stretch was cut short",
    "a task migrates while it is suspended or waits",
    "a task migrates whose stretch was cut short",
    "a task that runs under a hold is suspended",
)

# Those that need what came with the newest version.
NEW_SITUATIONS = (
    "a ready queue of another processor is rotated",
    "a start takes a stored processor, and activations stay queued",
)


def cases_of_task(service):
    """The replies of a call to a task, each E_CTX with its cause."""
    if service in FOR_HANDLERS:
        return ["E_CTX from a task"]
    cases = list(REPLIES[service])
    if service not in UNDER_CPU_LOCK:
        cases.append("E_CTX under CPU lock")
    if service in WAITING_CALLS | STOPPING_CALLS:
        cases.append("E_CTX without dispatching")
    if service == "unl_cpu":
        cases.append("E_CTX under a spin lock")
    return cases


def cases_of_handler(service):
    if service in FOR_ALL | FOR_HANDLERS:
        return REPLIES[service]
    return ["E_CTX from a handler"]


def cases_of(version):
    """The caller, call and case of each reply that systems of a version should show."""
    return frozenset(
        (caller, service.name, case)
        for service in version.services
        for caller, cases in (("task", cases_of_task), ("handler", cases_of_handler))
        for case in cases(service.name)
    )


def situations_of(version):
    """The situations that systems of a version should show."""
    lacking = () if version == NEWEST else NEW_SITUATIONS
    return [situation for situation in SITUATIONS if situation not in lacking]


def pairs_of(caller, cases):
    """The calls of tasks or of handlers among these, each with its reply."""
    return {(service, case.split()[0]) for who, service, case in cases if who == caller}
