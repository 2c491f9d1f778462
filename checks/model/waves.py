#!/usr/bin/env python3
"""Compares the dumps of `fmp_view waves` with the model on random systems, every other one at a bound of 1 to 40, which
cuts most stretches short: after each event, and each run that kept a place, each variable has the value that the
model's state gives it. GTKWave's converters, where they are there, must take each dump, those of the examples,
and one of 255 tasks over 10,000 events with nothing on standard error.

    checks/model/waves.py [COUNT [SEED]] [--view PATH] [--program PATH]
"""

import shutil
import subprocess
import sys
from pathlib import Path

sys.dont_write_bytecode = True  # the folders of the checks stay as they are
sys.path[0] = str(Path(__file__).resolve().parents[1])  # the folder `checks`, whose folders are packages

from common.program import ROOT  # noqa: E402
from model.bodies import Call, stretch  # noqa: E402
from model.harness import Wrong, expect, main  # noqa: E402
from model.kernel import Kernel  # noqa: E402
from model.services import LockIsHeld, Refused, Services  # noqa: E402
from model.world import CPU, FREE, CyclicHandler, State  # noqa: E402

EXAMPLES = ROOT / "examples"
GREATEST_CUT = 40  # the greatest bound that cuts stretches short
CONVERTERS = ("vcd2fst", "vcd2lxt", "vcd2lxt2", "vcd2vzt")
STATES = {"DORMANT": 0, "READY": 1, "RUNNING": 2, "WAITING": 3, "SUSPENDED": 4, "WAITING-SUSPENDED": 5}


# What the model says


def handler_code(handler):
    """0 none, the number of a cyclic handler, 256 and the number of an interrupt."""
    if handler is None:
        return 0
    return handler.number + (0 if isinstance(handler, CyclicHandler) else 256)


def lock_code(lock):
    """0 none, 1 the CPU lock, 256 and the number of a spin lock."""
    return {FREE: 0, CPU: 1}[lock] if lock in (FREE, CPU) else 256 + lock


def refused(number, line):
    """What the first line of an event says of a processor: 0 as asked, 1 a code other than E_OK, 2 a fault."""
    words = line.split(" ")
    if words[1:2] != [f"p{number}"]:
        return 0
    if words[3].startswith("F_"):
        return 2
    return int(words[4:5] != [] and words[4].startswith("E_") and words[4] != "E_OK")


def spun_lock(kernel, processor):
    """The spin lock for which the actor of a processor spins: its next run would come to that. 0 for none."""
    if processor.actor is None:
        return 0
    what, context = stretch(kernel.system.bodies[processor.actor.body], processor.actor.context)
    is_cut = context.units > processor.actor.context.spent + kernel.bound
    if is_cut or not isinstance(what, Call) or what.service != "loc_spn":
        return 0
    number, lock = context.read(what.arguments[0]), processor.lock
    try:
        Services(kernel.world, processor.actor, processor).serve("loc_spn", [number])
    except LockIsHeld:
        return number
    except Refused:
        return 0
    processor.lock = lock
    return 0


def processor_values(kernel, processor, line):
    """The variables of a processor after an event that told this line first."""
    values = {
        "run": processor.running.number if processor.running else 0, "handler": handler_code(processor.handler),
        "lock": lock_code(processor.lock), "dispatch": int(processor.dispatch_enabled),
        "refused": refused(processor.number, line),
    }
    return values | ({"spins": spun_lock(kernel, processor)} if kernel.system.spin_locks else {})


def waits_of(system, world):
    """Of the identity of each wait queue the kind of the wait and the number of the object."""
    kinds = {id(world.sleepers): (1, 0), id(world.delayed): (2, 0)}
    for kind, queues in ((3, [x.waiters for x in system.semaphores]), (4, [x.waiters for x in system.flags]),
                         (5, [x.senders for x in system.data_queues]), (6, [x.receivers for x in system.data_queues]),
                         (7, [x.waiters for x in system.mailboxes])):
        kinds.update({id(queue): (kind, number) for number, queue in enumerate(queues, 1)})
    return kinds


def task_values(kernel, task, kinds):
    """The variables of a task."""
    word = kernel.state_line(task).split(" ")[1]
    kind, number = kinds[id(task.wait.queue)] if task.state is State.WAITING else (0, 0)
    return {"state": STATES[word], "running": int(word == "RUNNING"), "processor": task.processor,
            "priority": task.priority, "wait_kind": kind, "wait_object": number}


def handling(world, handler):
    """0 idle, 1 pending, 2 runs, 3 runs and is pending again."""
    runs = any(processor.handler is handler for processor in world.processors)
    return 2 * runs + (handler in world.processors[handler.processor - 1].pending)


def object_values(system, world):
    """Of the name of each object its variables."""
    def waiting(*queues):
        return sum(len(world.members(queue)) for queue in queues)

    values = {f"S{n}": {"count": x.count, "waiting": waiting(x.waiters)} for n, x in enumerate(system.semaphores, 1)}
    values |= {f"F{n}": {"pattern": x.pattern, "waiting": waiting(x.waiters)} for n, x in enumerate(system.flags, 1)}
    values |= {f"D{n}": {"words": len(x.words), "waiting": waiting(x.senders, x.receivers)}
               for n, x in enumerate(system.data_queues, 1)}
    values |= {f"X{n}": {"messages": len(x.queued), "waiting": waiting(x.waiters)}
               for n, x in enumerate(system.mailboxes, 1)}
    return values | {f"W{n}": {"value": x & 0xFFFFFFFF} for n, x in enumerate(system.shared_words, 1)}


def model_values(kernel, line):
    """The value of each variable, by its scopes and name, after an event that told this line first, if any."""
    system, world = kernel.system, kernel.world
    kinds = waits_of(system, world)
    groups = {f"p{x.number}": processor_values(kernel, x, line) for x in world.processors}
    groups |= {f"tasks.{x.name}": task_values(kernel, x, kinds) for x in system.tasks}
    groups |= {f"cyclic.{x.name}": {"handling": handling(world, x)} for x in system.cyclic_handlers}
    groups |= {f"interrupt.i{x.number}": {"handling": handling(world, x)} for x in system.interrupt_handlers}
    groups |= {f"objects.{name}": values for name, values in object_values(system, world).items()}
    values = {f"{group}.{name}": value for group, names in groups.items() for name, value in names.items()}
    return {"clock": world.clock, **values}


# What a dump says


def variables_of(head):
    """Of each identifier of a dump the scopes below the first, and the name."""
    scopes, names = [], {}
    for line in head:
        words = line.split()
        if words[:1] == ["$scope"]:
            scopes.append(words[2])
        elif words[:1] == ["$upscope"]:
            scopes.pop()
        elif words[:1] == ["$var"]:
            names[words[3]] = ".".join([*scopes[1:], words[4]])
    return names


def dumped_values(dump):
    """The values of all variables after setup and after each event; at last once more the last ones."""
    lines = dump.split("\n")
    end = lines.index("$enddefinitions $end")
    names = variables_of(lines[:end])
    values, states = {}, []
    for line in lines[end + 1:-1]:
        if line.startswith("#"):
            if int(line[1:]) != len(states):
                raise ValueError(f"{line} stands where event {len(states)} should")
            if values:
                states[-1] = dict(values)
            states.append({})
        elif not line.startswith("$"):
            bits, identifier = line[1:].split(" ") if line.startswith("b") else (line[0], line[1:])
            values[names[identifier]] = int(bits, 2)
    states[-1] = dict(values)
    return states


# Both


def expect_converted(trial, dump):
    """Each converter that is there takes the dump, and says nothing."""
    for converter in filter(shutil.which, CONVERTERS):
        done = subprocess.run([converter, dump, "converted"], cwd=trial.folder, capture_output=True, text=True,
                              check=False)
        expect(done.returncode == 0 and not done.stderr, f"{converter}: status {done.returncode}: {done.stderr}")


def expect_values(dumped, wanted):
    """A dump has the values that it should have after each event."""
    expect(len(dumped) == len(wanted) + 1 and dumped[-1] == dumped[-2],
           f"{len(dumped)} times for {len(wanted) - 1} events")
    for event, (values, said) in enumerate(zip(wanted, dumped)):
        if values != said:
            name = min(name for name in values.keys() | said.keys() if values.get(name) != said.get(name))
            raise Wrong(f"event {event}: {name} is {said.get(name)}, and of the model {values.get(name)}")


def random_values(generator, case, bound):
    """The values of the model after setup, each event and each run that kept a place, and the steps."""
    kernel = Kernel(case.system, bound)
    values, steps = [model_values(kernel, "")], []
    for _ in range(case.event_count):
        steps.append(generator.event(kernel.world))
        before, told = kernel.taken, len(kernel.world.lines)
        kernel.step(steps[-1])
        if kernel.taken != before:
            values.append(model_values(kernel, next(iter(kernel.world.lines[told:]), "")))
    return values, steps


def dump_one(trial, generator, bound):
    """Compares the dump of one random system at a bound: how many events it has."""
    case = generator.case()
    wanted, steps = random_values(generator, case, bound)
    trial.build_case(case)
    trial.write("system.steps", "".join(f"{step}\n" for step in steps))
    trial.run("fmp_view", f"waves system.img system.steps system.vcd --bound {bound}")
    expect_values(dumped_values(trial.read("system.vcd")), wanted)
    expect_converted(trial, "system.vcd")
    return len(wanted) - 1


def great():
    """Two texts: 255 tasks on 8 processors, with objects of each kind that they wait for."""
    tasks = "".join(
        f"CLASS(TCL_{n % 8 + 1}) {{ CRE_TSK(T{n},{{TA_ACT,{n},t{n % 4},{n % 15 + 2},256,NULL}}); }}\n"
        for n in range(1, 256))
    objects = ("CRE_SEM(S,{TA_TPRI,3,255}); CRE_FLG(F,{TA_TPRI|TA_WMUL,0}); CRE_DTQ(D,{TA_TPRI,200,NULL}); "
               "CRE_MBX(M,{TA_TPRI|TA_MPRI,16,NULL}); "
               + " ".join(f"CRE_MSG(G{n},{{{n % 16 + 1}}});" for n in range(1, 256)))
    source = (
        "task t0 { while (1) { twai_sem(S, 9); dly_tsk(1); sig_sem(S); } }\n"
        "task t1 { while (1) { tsnd_dtq(D, 7, 5); set_flg(F, 1); dly_tsk(2); } }\n"
        "task t2 { var w; while (1) { trcv_dtq(D, &w, 3); twai_flg(F, 1, TWF_ORW, &w, 4); clr_flg(F, 0); } }\n"
        "task t3 { var g; while (1) { snd_mbx(M, exinf); trcv_mbx(M, &g, 3); dly_tsk(3); } }\n")
    return f"NUM_PRC(8);\nCLASS(TCL_1) {{ {objects} }}\n{tasks}", source


def dump_file(trial, name, configuration, source, steps):
    """Gives the dump of a system over a steps text, or over its drive where there is none, to the converters."""
    trial.at = f"{name}: "
    trial.build(configuration, source)
    trial.write("system.steps", steps or trial.run("fmp_view", "drive system.img --events 10000 --seed 1")[0])
    trial.run("fmp_view", "waves system.img system.steps system.vcd")
    expect_converted(trial, "system.vcd")


def check(trial):
    """Dumps the examples, the great system and each random system."""
    for path in sorted(EXAMPLES.glob("*.steps")):
        dump_file(trial, path.stem, *(path.with_suffix(f".{kind}").read_text() for kind in ("cfg", "src", "steps")))
    dump_file(trial, "255 tasks", *great(), "")
    events = sum(dump_one(trial, generator, trial.bound(seed, GREATEST_CUT)) for seed, generator in trial.systems())
    there = [name for name in CONVERTERS if shutil.which(name)]
    print(f"checks/model/waves.py: the dumps of {trial.count} systems, {events} events, are those of the model")
    print(f"silent over these, the examples and 255 tasks: {', '.join(there) or 'no converter is there'}")


if __name__ == "__main__":
    about = "Compares dumps with a model, and gives them to converters."
    sys.exit(main(about, 500, ("fmp", "fmp_view"), check))
