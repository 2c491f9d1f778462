"""The service calls of the model: from where each may be called, and what each does.

A method of the call's name is its case. It answers nothing, a value, `WAITS` or `ENDS`, or it refuses. What is
left when a call is refused is what stood before: every test comes before the first change.
"""

from functools import partial

from model.world import (
    ALL_BITS, ANY_BIT, CPU, FREE, GREATEST_PATTERN, GREATEST_TIME, LEAST_URGENT, Code, Handler, Reply, State, Wait,
)

FOREVER, POLL = -1, 0
OWN_TASK = 0
WAITS, ENDS = "wait", "end"

FOR_ALL = frozenset("put ld_shr st_shr".split())
FOR_HANDLERS = frozenset("iact_tsk iwup_tsk irel_wai isig_sem iset_flg ipsnd_dtq ifsnd_dtq irot_rdq".split())
UNDER_CPU_LOCK = FOR_ALL | frozenset("ext_tsk loc_cpu unl_cpu unl_spn".split())
WAITING_CALLS = frozenset(
    "slp_tsk tslp_tsk dly_tsk wai_sem twai_sem wai_flg twai_flg snd_dtq tsnd_dtq rcv_dtq trcv_dtq "
    "rcv_mbx trcv_mbx".split())
STOPPING_CALLS = frozenset("mig_tsk sus_tsk".split())

# The calls that are others with a time limit that they do not show.
FIXED_LIMITS = {
    "slp_tsk": ("tslp_tsk", FOREVER), "wai_sem": ("twai_sem", FOREVER), "pol_sem": ("twai_sem", POLL),
    "wai_flg": ("twai_flg", FOREVER), "pol_flg": ("twai_flg", POLL),
    "snd_dtq": ("tsnd_dtq", FOREVER), "psnd_dtq": ("tsnd_dtq", POLL), "ipsnd_dtq": ("tsnd_dtq", POLL),
    "rcv_dtq": ("trcv_dtq", FOREVER), "prcv_dtq": ("trcv_dtq", POLL),
    "rcv_mbx": ("trcv_mbx", FOREVER), "prcv_mbx": ("trcv_mbx", POLL),
}


class Refused(Exception):
    """A call changes nothing and answers this code at once. The cause is for the report of the comparison."""

    def __init__(self, code, cause=""):
        super().__init__(code.name)
        self.code = code
        self.case = f"{code.name} {cause}".strip()


class LockIsHeld(Exception):
    """`loc_spn` of a lock that is held: the event is nothing at all."""


def need(condition, code, cause=""):
    """Refuses the call where the condition does not hold."""
    if not condition:
        raise Refused(code, cause)


def find(objects, number):
    """The object of this number; numbers begin at 1."""
    need(1 <= number <= len(objects), Code.E_ID)
    return objects[number - 1]


def need_limit(limit):
    need(FOREVER <= limit <= GREATEST_TIME, Code.E_PAR)


class Services:
    """The calls of one caller, a task or a handler, on its processor."""

    def __init__(self, world, caller, processor):
        self.world = world
        self.system = world.system
        self.caller = caller
        self.processor = processor
        self.is_handler = isinstance(caller, Handler)

    def serve(self, service, arguments):
        """Makes a call: what it gives."""
        self.need_context(service, arguments)
        return self.case(service)(*arguments)

    def case(self, service):
        """The method of a call."""
        if service in FIXED_LIMITS:
            limited, limit = FIXED_LIMITS[service]
            return partial(getattr(self, limited), limit=limit)
        return getattr(self, service)

    def need_context(self, service, arguments):
        """A call has E_CTX where it may not be made now, whatever else is wrong with it."""
        if self.is_handler:
            need(service in FOR_ALL | FOR_HANDLERS, Code.E_CTX, "from a handler")
        else:
            need(service not in FOR_HANDLERS, Code.E_CTX, "from a task")
        need(not self.processor.is_locked or service in UNDER_CPU_LOCK, Code.E_CTX, "under CPU lock")
        if not self.processor.dispatch_enabled and not self.is_handler:
            stops = service in STOPPING_CALLS and arguments[0] in (OWN_TASK, self.caller.number)
            need(service not in WAITING_CALLS and not stops, Code.E_CTX, "without dispatching")

    def task(self, number):
        return find(self.world.tasks, number)

    def task_or_caller(self, number):
        return self.caller if number == OWN_TASK else self.task(number)

    def note_cut(self, what, task):
        """Notes what comes to a task in the middle of a stretch. The caller's own stretch is over with its call."""
        is_cut = task is not self.caller and task.context.spent > 0
        self.world.situations[f"a task {what} whose stretch was cut short"] += is_cut

    def release(self, task, value=None, code=Code.E_OK):
        if self.is_handler and task.processor != self.processor.number:
            self.world.situations["a handler releases a task of another processor"] += 1
            if self.world.processors[task.processor - 1].is_locked:
                self.world.situations["a handler releases a task of a processor that is locked"] += 1
        self.world.release(task, Reply(code, value))

    def wait(self, wait, limit):
        """The caller waits; a call that polls answers E_TMOUT instead."""
        need(limit != POLL, Code.E_TMOUT)
        return self.wait_until(wait, None if limit == FOREVER else self.world.clock + limit + 1)

    def wait_until(self, wait, deadline):
        self.world.wait(self.caller, wait, deadline)
        return WAITS

    # The trace and shared words

    def put(self, _word):
        return None

    def ld_shr(self, number):
        return find(self.system.shared_words, number)

    def st_shr(self, number, word):
        find(self.system.shared_words, number)
        self.system.shared_words[number - 1] = word

    # Tasks: starts, ends, priorities and processors

    def activate(self, task):
        if task.state is State.DORMANT:
            self.world.start(task)
        else:
            need(task.activations < self.system.queue_limit, Code.E_QOVR)
            task.activations += 1

    def act_tsk(self, number):
        self.activate(self.task_or_caller(number))

    def iact_tsk(self, number):
        self.activate(self.task(number))

    def mact_tsk(self, number, processor):
        """A task that is not dormant keeps the processor for its next start."""
        task = self.task_or_caller(number)
        need(processor in task.allowed, Code.E_PAR)
        if task.state is State.DORMANT:
            task.processor = processor
            self.world.start(task)
        else:
            self.activate(task)
            task.stored_processor = processor

    def can_act(self, number):
        task = self.task_or_caller(number)
        count, task.activations, task.stored_processor = task.activations, 0, None
        return count

    def ext_tsk(self):
        return ENDS

    def ter_tsk(self, number):
        task = self.task(number)
        need(task is not self.caller, Code.E_ILUSE)
        need(task.state is not State.DORMANT and task.processor == self.processor.number, Code.E_OBJ)
        self.note_cut("is terminated", task)
        self.world.end(task)

    def chg_pri(self, number, priority):
        """A ready task goes to the end, and one in a queue of priority order; others keep their place."""
        task = self.task_or_caller(number)
        need(0 <= priority <= LEAST_URGENT, Code.E_PAR)
        need(task.state is not State.DORMANT, Code.E_OBJ)
        task.priority = priority or task.initial_priority
        if task.is_ready or task.wait and task.wait.queue.by_priority:
            self.world.to_end(task)

    def get_pri(self, number):
        task = self.task_or_caller(number)
        need(task.state is not State.DORMANT, Code.E_OBJ)
        return task.priority

    def mig_tsk(self, number, processor):
        """Within its own processor nothing moves; a ready task goes to the end; one that waits keeps its place."""
        task = self.task_or_caller(number)
        need(processor in task.allowed, Code.E_PAR)
        need(task.state is not State.DORMANT and task.processor == self.processor.number, Code.E_OBJ)
        if processor == task.processor:
            return
        task.processor = processor
        if task.is_ready:
            self.world.to_end(task)
        if task.suspended or task.wait:
            self.world.situations["a task migrates while it is suspended or waits"] += 1
        self.note_cut("migrates", task)

    # Tasks: sleep, suspension and delay

    def tslp_tsk(self, limit):
        need_limit(limit)
        if self.caller.wakeups == 0:
            return self.wait(Wait(self.world.sleepers), limit)
        self.caller.wakeups -= 1
        return None

    def wake(self, task):
        need(task.state is not State.DORMANT, Code.E_OBJ)
        if task.wait and task.wait.queue is self.world.sleepers:
            self.release(task)
        else:
            need(task.wakeups < self.system.queue_limit, Code.E_QOVR)
            task.wakeups += 1

    def wup_tsk(self, number):
        self.wake(self.task_or_caller(number))

    def iwup_tsk(self, number):
        self.wake(self.task(number))

    def can_wup(self, number):
        task = self.task_or_caller(number)
        need(task.state is not State.DORMANT, Code.E_OBJ)
        count, task.wakeups = task.wakeups, 0
        return count

    def rel_wai(self, number):
        task = self.task(number)
        need(task.state is State.WAITING, Code.E_OBJ)
        self.release(task, code=Code.E_RLWAI)

    irel_wai = rel_wai

    def sus_tsk(self, number):
        """A ready task leaves the order; one that waits keeps its place."""
        task = self.task_or_caller(number)
        need(task.state is not State.DORMANT, Code.E_OBJ)
        need(not task.suspended, Code.E_QOVR)
        if self.world.runs(task) and self.world.processors[task.processor - 1].holds_dispatch:
            self.world.situations["a task that runs under a hold is suspended"] += 1
        self.note_cut("is suspended", task)
        task.suspended = True
        if task.state is State.READY:
            self.world.leave(task)

    def rsm_tsk(self, number):
        task = self.task(number)
        need(task.suspended, Code.E_OBJ)
        task.suspended = False
        if task.state is State.READY:
            self.world.to_end(task)

    def dly_tsk(self, time):
        need(0 <= time <= GREATEST_TIME, Code.E_PAR)
        return self.wait_until(Wait(self.world.delayed), self.world.clock + time + 1)

    # Semaphores

    def sig_sem(self, number):
        semaphore = find(self.system.semaphores, number)
        if waiter := self.world.first(semaphore.waiters):
            self.release(waiter)
        else:
            need(semaphore.count < semaphore.greatest, Code.E_QOVR)
            semaphore.count += 1

    isig_sem = sig_sem

    def twai_sem(self, number, limit):
        semaphore = find(self.system.semaphores, number)
        need_limit(limit)
        if semaphore.count == 0:
            return self.wait(Wait(semaphore.waiters), limit)
        semaphore.count -= 1
        return None

    # Event flags

    def set_flg(self, number, bits):
        """Releases each waiter whose condition holds; with TA_CLR the first release clears all bits."""
        flag = find(self.system.flags, number)
        need(0 <= bits <= GREATEST_PATTERN, Code.E_PAR)
        flag.pattern |= bits
        for task in self.world.members(flag.waiters):
            if flag.meets(task.wait.bits, task.wait.mode):
                self.release(task, flag.pattern)
                if flag.clears:
                    flag.pattern = 0
                    break

    iset_flg = set_flg

    def clr_flg(self, number, bits):
        flag = find(self.system.flags, number)
        need(0 <= bits <= GREATEST_PATTERN, Code.E_PAR)
        flag.pattern &= bits

    def twai_flg(self, number, bits, mode, limit):
        flag = find(self.system.flags, number)
        need(1 <= bits <= GREATEST_PATTERN and mode in (ALL_BITS, ANY_BIT), Code.E_PAR)
        need_limit(limit)
        need(flag.many_may_wait or not self.world.members(flag.waiters), Code.E_ILUSE)
        if not flag.meets(bits, mode):
            return self.wait(Wait(flag.waiters, bits=bits, mode=mode), limit)
        pattern = flag.pattern
        if flag.clears:
            flag.pattern = 0
        return pattern

    # Data queues

    def tsnd_dtq(self, number, word, limit):
        queue = find(self.system.data_queues, number)
        need_limit(limit)
        if receiver := self.world.first(queue.receivers):
            self.release(receiver, word)
        elif len(queue.words) < queue.capacity:
            queue.words.append(word)
        else:
            return self.wait(Wait(queue.senders, word=word), limit)
        return None

    def fsnd_dtq(self, number, word):
        """Drops the oldest word of a full queue."""
        queue = find(self.system.data_queues, number)
        need(queue.capacity > 0, Code.E_ILUSE)
        if receiver := self.world.first(queue.receivers):
            self.release(receiver, word)
        else:
            if len(queue.words) == queue.capacity:
                queue.words.pop(0)
            queue.words.append(word)

    ifsnd_dtq = fsnd_dtq

    def trcv_dtq(self, number, limit):
        """Takes the oldest word; the first sender's word moves up after the others."""
        queue = find(self.system.data_queues, number)
        need_limit(limit)
        sender = self.world.first(queue.senders)
        if not queue.words and sender is None:
            return self.wait(Wait(queue.receivers), limit)
        if sender:
            queue.words.append(sender.wait.word)
            self.release(sender)
        return queue.words.pop(0)

    # Mailboxes

    def snd_mbx(self, number, message):
        """A message is queued last, or with TA_MPRI after those that are as urgent or more."""
        mailbox = find(self.system.mailboxes, number)
        priority = find(self.system.messages, message)
        need(not mailbox.sorts_messages or priority <= mailbox.least_urgent, Code.E_PAR)
        need(all(message not in other.queued for other in self.system.mailboxes), Code.E_OBJ)
        if waiter := self.world.first(mailbox.waiters):
            self.release(waiter, message)
            return
        mailbox.queued.append(message)
        if mailbox.sorts_messages:
            mailbox.queued.sort(key=lambda queued: self.system.messages[queued - 1])

    def trcv_mbx(self, number, limit):
        mailbox = find(self.system.mailboxes, number)
        need_limit(limit)
        return mailbox.queued.pop(0) if mailbox.queued else self.wait(Wait(mailbox.waiters), limit)

    # Cyclic handlers

    def sta_cyc(self, number):
        handler = find(self.system.cyclic_handlers, number)
        handler.due = self.world.clock + handler.period + 1

    def stp_cyc(self, number):
        find(self.system.cyclic_handlers, number).due = None

    # The processor

    def rotate(self, processor, priority):
        ready = [task for task in self.world.ready(processor) if task.priority == priority]
        if ready:
            self.world.to_end(ready[0])

    def rot_rdq(self, priority):
        need(0 <= priority <= LEAST_URGENT, Code.E_PAR)
        self.rotate(self.processor.number, priority or self.caller.priority)

    def irot_rdq(self, priority):
        need(1 <= priority <= LEAST_URGENT, Code.E_PAR)
        self.rotate(self.processor.number, priority)

    def mrot_rdq(self, priority, processor):
        need(0 <= priority <= LEAST_URGENT, Code.E_PAR)
        need(1 <= processor <= len(self.world.processors), Code.E_PAR)
        own = processor == self.processor.number
        self.world.situations["a ready queue of another processor is rotated"] += not own
        self.rotate(processor, priority or self.caller.priority)

    def get_tid(self):
        return self.caller.number

    def loc_cpu(self):
        if self.processor.lock == FREE:
            self.processor.lock = CPU

    def unl_cpu(self):
        need(self.processor.lock in (FREE, CPU), Code.E_CTX, "under a spin lock")
        self.processor.lock = FREE

    def dis_dsp(self):
        self.processor.dispatch_enabled = False

    def ena_dsp(self):
        self.processor.dispatch_enabled = True

    # Spin locks

    def is_held(self, number):
        find(self.system.spin_locks, number)
        return any(processor.lock == number for processor in self.world.processors)

    def loc_spn(self, number):
        if self.is_held(number):
            raise LockIsHeld
        self.processor.lock = number

    def try_spn(self, number):
        need(not self.is_held(number), Code.E_OBJ)
        self.processor.lock = number

    def unl_spn(self, number):
        find(self.system.spin_locks, number)
        need(self.processor.lock == number, Code.E_ILUSE)
        self.processor.lock = FREE
