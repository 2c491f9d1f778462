"""The service calls as the checks know them: how each is written, what it may answer, and how random bodies call it."""

from typing import NamedTuple


class Service(NamedTuple):
    """A service call. In its form, `&` is the out place."""

    name: str
    form: list
    replies: list
    tries: dict


# In order of function codes: the name; the form; the replies, beside E_CTX; and by group of calls, the kinds of the
# arguments that random bodies pass. A call is as likely in a group as it stands there often.
TABLE = """
put | value | E_OK | words: word, v, r
ld_shr | word & | E_OK E_ID | words: shared_word
st_shr | word value | E_OK E_ID | words: shared_word word
act_tsk | task | E_OK E_ID E_QOVR | tasks: task, task; migration: task
can_act | task | E_OK E_ID | tasks: task; migration: task
ext_tsk | - | end | tasks: -
ter_tsk | task | E_OK E_ID E_ILUSE E_OBJ | tasks: task, task
chg_pri | task priority | E_OK E_ID E_PAR E_OBJ | tasks: task priority, task usual_priority
get_pri | task & | E_OK E_ID E_OBJ | tasks: task
mact_tsk | task processor | E_OK E_ID E_PAR E_QOVR | migration: task processor, task processor
mig_tsk | task processor | E_OK E_ID E_PAR E_OBJ | migration: task processor, task processor, task processor
slp_tsk | - | E_OK wait | waits: -
tslp_tsk | limit | E_OK wait E_PAR E_TMOUT | waits: limit
wup_tsk | task | E_OK E_ID E_OBJ E_QOVR | waits: task, task
can_wup | task | E_OK E_ID E_OBJ | waits: task
rel_wai | task | E_OK E_ID E_OBJ | waits: task
sus_tsk | task | E_OK E_ID E_OBJ E_QOVR | migration: task; waits: task
rsm_tsk | task | E_OK E_ID E_OBJ | migration: task; waits: task, task
dly_tsk | delay | wait E_PAR | waits: delay
sig_sem | semaphore | E_OK E_ID E_QOVR | semaphores: semaphore, semaphore
wai_sem | semaphore | E_OK wait E_ID | semaphores: semaphore, semaphore
pol_sem | semaphore | E_OK E_ID E_TMOUT | semaphores: semaphore
twai_sem | semaphore limit | E_OK wait E_ID E_PAR E_TMOUT | semaphores: semaphore limit
set_flg | flag bits | E_OK E_ID E_PAR | flags: flag bits, flag bits
clr_flg | flag bits | E_OK E_ID E_PAR | flags: flag mask
wai_flg | flag bits mode & | E_OK wait E_ID E_PAR E_ILUSE | flags: flag bits mode, flag bits mode
pol_flg | flag bits mode & | E_OK E_ID E_PAR E_ILUSE E_TMOUT | flags: flag bits mode
twai_flg | flag bits mode & limit | E_OK wait E_ID E_PAR E_ILUSE E_TMOUT | flags: flag bits mode limit
snd_dtq | queue value | E_OK wait E_ID | data queues: data_queue word, data_queue word
psnd_dtq | queue value | E_OK E_ID E_TMOUT | data queues: data_queue word
tsnd_dtq | queue value limit | E_OK wait E_ID E_PAR E_TMOUT | data queues: data_queue word limit
fsnd_dtq | queue value | E_OK E_ID E_ILUSE | data queues: data_queue word
rcv_dtq | queue & | E_OK wait E_ID | data queues: data_queue, data_queue
prcv_dtq | queue & | E_OK E_ID E_TMOUT | data queues: data_queue
trcv_dtq | queue & limit | E_OK wait E_ID E_PAR E_TMOUT | data queues: data_queue limit
snd_mbx | mailbox message | E_OK E_ID E_PAR E_OBJ | mailboxes: mailbox message, mailbox message
rcv_mbx | mailbox & | E_OK wait E_ID | mailboxes: mailbox
prcv_mbx | mailbox & | E_OK E_ID E_TMOUT | mailboxes: mailbox
trcv_mbx | mailbox & limit | E_OK wait E_ID E_PAR E_TMOUT | mailboxes: mailbox limit
sta_cyc | cyclic | E_OK E_ID | processors: cyclic
stp_cyc | cyclic | E_OK E_ID | processors: cyclic, cyclic
rot_rdq | priority | E_OK E_PAR | tasks: priority
get_tid | & | E_OK | tasks: -
loc_cpu | - | E_OK | processors: -
unl_cpu | - | E_OK | processors: -, -
dis_dsp | - | E_OK | processors: -
ena_dsp | - | E_OK | processors: -, -
loc_spn | lock | E_OK E_ID | processors: spin_lock
try_spn | lock | E_OK E_ID E_OBJ | processors: spin_lock
unl_spn | lock | E_OK E_ID E_ILUSE | processors: spin_lock, spin_lock
iact_tsk | task | E_OK E_ID E_QOVR | handlers: other, other
iwup_tsk | task | E_OK E_ID E_OBJ E_QOVR | handlers: other
irel_wai | task | E_OK E_ID E_OBJ | handlers: other
isig_sem | semaphore | E_OK E_ID E_QOVR | handlers: semaphore
iset_flg | flag bits | E_OK E_ID E_PAR | handlers: flag bits
ipsnd_dtq | queue value | E_OK E_ID E_TMOUT | handlers: data_queue word
ifsnd_dtq | queue value | E_OK E_ID E_ILUSE | handlers: data_queue word
irot_rdq | priority | E_OK E_PAR | handlers: priority
mrot_rdq | priority processor | E_OK E_PAR | migration: priority processor
"""


def words_of(text):
    return text.replace("-", "").split()


def tries_of(text):
    """By group, the kinds of arguments of each try."""
    groups = (group.split(": ") for group in text.split("; "))
    return {group: [words_of(kinds) for kinds in tries.split(", ")] for group, tries in groups}


def service_of(row):
    name, form, replies, tries = row.split(" | ")
    return Service(name, words_of(form), words_of(replies), tries_of(tries))


SERVICES = [service_of(row) for row in TABLE.strip().splitlines()]
