"""Rows of runs that show each service call: its cases, and what it refuses. A row is a name, two texts, steps, and what
is printed. Where their number says nothing, the steps are more than are needed: a processor with nothing to do does
nothing."""

from textwrap import dedent

from rows.row_object_calls import OBJECT_CALLS
from rows.row_processor_calls import PROCESSOR_CALLS
from rows.row_queue_calls import QUEUE_CALLS
from rows.row_runs import DEFAULT_BOUND
from rows.row_task_calls import TASK_CALLS


def all_calls():
    """Each row: two texts, steps, a bound, and what is printed."""
    for _, configuration, source, events, trace in TASK_CALLS + PROCESSOR_CALLS + OBJECT_CALLS + QUEUE_CALLS:
        yield configuration, source, events, DEFAULT_BOUND, dedent(trace).removeprefix("\n")
