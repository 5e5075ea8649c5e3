"""A port to Python of what a run means, for the random tests of the built programs.

The definitions are those of crates/up_model/specs and, of a job's view, crates/up_isolation/specs/Views.antt, under the same names where
they have one. A chronicle is a list of entries with the oldest first, so that an entry's place is its index; each entry is a tuple
that begins with its kind. Texts that expand are `$KEY` or have no key, and patterns are a `*` or have none of their signs. No run here
reaches a limit of events or instances.
"""
import dataclasses

PROCESSES = ("main", "pre-start", "post-start", "pre-stop", "post-stop")
SIGNALS = {1: "HUP", 2: "INT", 9: "KILL", 10: "USR1", 15: "TERM"}
JOB_COMMANDS = ("start", "stop", "restart", "status", "reload")
BLOCKING = ("starting", "stopping")


@dataclasses.dataclass(frozen=True)
class Job:
    """What a job file says. An expression is None, `("leaf", event, values)` or `("and" | "or", left, right)`, and a value
    `("place" | "is" | "isn't", key, text)`."""
    name: str
    start_on: tuple | None = None
    stop_on: tuple | None = None
    instance: str = ""
    task: bool = False
    respawn: bool = False
    limit: tuple = (10, 5)
    kill_signal: int = 15
    kill_timeout: int = 5
    reload_signal: int = 1
    env: tuple = ()
    export: tuple = ()
    normal: tuple = ()
    processes: tuple = ("main",)

    def text(self):
        """The job file."""
        lines = [f"start on {expression_text(self.start_on)}"] if self.start_on else []
        lines += [f"stop on {expression_text(self.stop_on)}"] if self.stop_on else []
        lines += [f"instance {self.instance}"] if self.instance else []
        lines += ["task"] if self.task else []
        lines += ["respawn"] if self.respawn else []
        lines += ["respawn limit %d %d" % self.limit, f"kill signal {SIGNALS[self.kill_signal]}", f"kill timeout {self.kill_timeout}"]
        lines += [f"reload signal {SIGNALS[self.reload_signal]}"] if self.reload_signal != 1 else []
        lines += [f"env {key}" if value is None else f"env {key}={value}" for key, value in self.env]
        lines += [f"export {key}" for key in self.export]
        lines += [f"normal exit {status}" for status in self.normal]
        lines += [f"{'' if process == 'main' else process + ' '}exec /bin/{process}" for process in self.processes]
        return "".join(line + "\n" for line in lines)


def expression_text(tree):
    if tree[0] == "leaf":
        signs = {"place": lambda key, text: text, "is": lambda key, text: f"{key}={text}", "isn't": lambda key, text: f"{key}!={text}"}
        return " ".join([tree[1]] + [signs[kind](key, text) for kind, key, text in tree[2]])
    return f"({expression_text(tree[1])} {tree[0]} {expression_text(tree[2])})"


def event_names(tree):
    """The names of the events in an expression."""
    if tree is None:
        return set()
    return {tree[1]} if tree[0] == "leaf" else event_names(tree[1]) | event_names(tree[2])


# Expressions ------------------------------------------------------------------------------------------------------------------------


def expand(text, environment):
    return environment.get(text[1:]) if text.startswith("$") else text


def admits(pattern, value):
    return value is not None and (pattern == "*" or pattern == value)


def matches(leaf, sight):
    """Whether a leaf matches a seen event, `(event, name, variables, environment)`."""
    _, name, variables, environment = sight
    if leaf[1] != name:
        return False
    places = iter(variables.values())
    for kind, key, text in leaf[2]:
        pattern = expand(text, environment)
        value = next(places, None) if kind == "place" else variables.get(key)
        if pattern is None or admits(pattern, value) == (kind == "isn't"):
            return False
    return True


def first(leaf, seen):
    return next((sight[0] for sight in seen if matches(leaf, sight)), None)


def holds(tree, seen):
    if tree is None:
        return False
    if tree[0] == "leaf":
        return first(tree, seen) is not None
    left, right = holds(tree[1], seen), holds(tree[2], seen)
    return (left and right) if tree[0] == "and" else (left or right)


def kept(tree, seen):
    if tree is None:
        return []
    if tree[0] == "leaf":
        event = first(tree, seen)
        return [] if event is None else [event]
    return kept(tree[1], seen) + kept(tree[2], seen)


def taken(tree, seen):
    if not holds(tree, seen):
        return []
    return kept(tree, seen) if tree[0] == "leaf" else taken(tree[1], seen) + taken(tree[2], seen)


# The chronicle and its readings -----------------------------------------------------------------------------------------------------


class Chronicle(list):
    """All that happened over some jobs, in byte order of their names."""

    def __init__(self, jobs, entries=()):
        super().__init__(entries)
        self.jobs = jobs

    def before(self, place):
        return Chronicle(self.jobs, self[:place])

    def latest(self, kinds, instance):
        """The last entry of one of these kinds about an instance."""
        return next((entry for entry in reversed(self) if entry[0] in kinds and entry[1] == instance), None)

    def job_named(self, name):
        return next((job for job in self.jobs if job.name == name), None)

    def event_at(self, place):
        return self[place][2:] if self[place][0] == "Queued" else None

    def made_at(self, instance):
        return self[instance][1:] if self[instance][0] == "Made" else None

    def request_at(self, place):
        entry = self[place]
        return entry[1][1:] if entry[0] == "Given" and entry[1][0] == "Request" else None

    def goal(self, instance):
        aimed = self.latest(("Aimed",), instance)
        return aimed[2] if aimed else "stop"

    def state(self, instance):
        entered = self.latest(("Entered",), instance)
        return entered[2] if entered else "waiting"

    def was_restarted(self, instance):
        entry = self.latest(("Restarted", "Entered"), instance)
        return entry is not None and entry[0] == "Restarted"

    def env(self, instance):
        """The environment in force."""
        place = max((k for k, entry in enumerate(self) if entry[:3] == ("Entered", instance, "starting")), default=0)
        starts = [entry for entry in self[:place] if entry[:3] == ("Aimed", instance, "start")]
        return dict(starts[-1][3]) if starts else {}

    def stop_env(self, instance):
        aimed = self.latest(("Aimed",), instance)
        return dict(aimed[3]) if aimed and aimed[2] == "stop" else {}

    def process_env(self, instance, process):
        stop = self.stop_env(instance) if process in ("pre-stop", "post-stop") else {}
        return self.env(instance) | stop

    def failure(self, instance):
        for entry in reversed(self):
            if entry[:2] == ("Failed", instance):
                return entry[2]
            if entry[:3] == ("Entered", instance, "starting"):
                return None
        return None

    def holders(self, instance):
        entry = self.latest(("Aimed", "Restarted", "Released"), instance)
        return [] if entry is None or entry[0] == "Released" else list(entry[-1])

    def blocker(self, instance):
        """The event that an instance waits for."""
        queued = [k for k, entry in enumerate(self)
                  if entry[0] == "Queued" and entry[1][:2] == ("Entering", instance) and entry[1][2] in BLOCKING]
        return queued[-1] if queued and ("Finished", queued[-1]) not in self else None

    def awaits(self, instance, process):
        """Whether a process is ordered and unanswered."""
        who = self.made_at(instance)
        for entry in reversed(self[instance + 1:]):
            if entry == ("Ordered", instance, process):
                return True
            if entry[0] == "Given" and entry[1][0] in ("Spawned", "Refused") and entry[1][1:3] == (who, process):
                return False
        return False

    def pid(self, instance, process):
        who = self.made_at(instance)
        for entry in reversed(self[instance + 1:]):
            if entry[0] == "Given" and entry[1][0] in ("Spawned", "Ended") and entry[1][1:3] == (who, process):
                return entry[1][3] if entry[1][0] == "Spawned" else None
        return None

    def lives(self, instance, process):
        return self.pid(instance, process) is not None

    def instances(self, job):
        """The instances of a job, each with its place, by name."""
        made = {k: entry[2] for k, entry in enumerate(self) if entry[:2] == ("Made", job)}
        for entry in self:
            if entry[0] == "Entered" and entry[2] == "waiting":
                made.pop(entry[1], None)
        return sorted((name, place) for place, name in made.items())

    def instance_named(self, who):
        return dict(self.instances(who[0])).get(who[1])

    def now(self):
        return max((entry[1][1] for entry in self if entry[0] == "Given" and entry[1][0] == "Clock"), default=0)

    def may_respawn(self, job, instance):
        count, seconds = job.limit
        recent = [e for e in self if e[:2] == ("Respawned", instance) and self.now() - e[2] < 1000 * seconds]
        return 0 in job.limit or len(recent) < count

    def is_kill_due(self, job, instance):
        signalled = [k for k, entry in enumerate(self) if entry[0] in ("Entered", "Signalled") and entry[1] == instance]
        if self.state(instance) != "killed" or not self.lives(instance, "main"):
            return False
        last = self[signalled[-1]]
        if last[0] == "Entered" or last[3]:
            return False
        return self.now() - self.before(signalled[-1]).now() >= 1000 * job.kill_timeout

    def queue(self):
        """The events that haven't finished, oldest first, and whether a turn took each up."""
        queue = {}
        for place, entry in enumerate(self):
            if entry[0] == "Queued":
                queue[place] = False
            elif entry[0] == "Handled":
                queue[entry[1]] = True
            elif entry[0] == "Finished":
                del queue[entry[1]]
        return queue

    def seen(self, expression):
        """What an expression has seen: `("StartOn", job)` or `("StopOn", instance)`."""
        seen = []
        for place, entry in enumerate(self):
            if entry[:2] == ("Offered", expression):
                name, variables = self.event_at(entry[2])
                environment = self.job_env(expression[1]) if expression[0] == "StartOn" else self.before(place).env(expression[1])
                seen.append((entry[2], name, variables, environment))
            elif entry[:2] == ("Fired", expression):
                seen = []
        return seen

    def job_env(self, name):
        return {key: value for key, value in self.job_named(name).env if value is not None}

    def held(self):
        held = set()
        for job in self.jobs:
            held |= set(kept(job.start_on, self.seen(("StartOn", job.name))))
            for _, instance in self.instances(job.name):
                held |= set(kept(job.stop_on, self.seen(("StopOn", instance)))) | set(self.holders(instance))
        return held

    def is_spoilt(self, event):
        return any(entry[0] == "Released" and entry[2] and event in self.before(place).holders(entry[1])
                   for place, entry in enumerate(self))

    def in_step(self):
        """The entries of the last step, newest first, without the input."""
        for entry in reversed(self):
            if entry[0] == "Given":
                return
            yield entry

    def turn_event(self):
        held = self.held()
        return next(((event, handled) for event, handled in self.queue().items() if not handled or event not in held), (None, False))

    def status(self, instance):
        who, state = self.made_at(instance), self.state(instance)
        main, own = self.pid(instance, "main"), self.pid(instance, state) if state in PROCESSES else None
        text = f"{who_name(who)} {self.goal(instance)}/{state}" + ("" if main is None else f", process {main}")
        if own is None:
            return text
        if main is not None:
            return text + (f"\n\t{state} process {own}" if state in ("post-start", "pre-stop") else "")
        return text + (f", process {own}" if state in ("pre-start", "post-stop") else f", ({state}) process {own}")


def who_name(who):
    return f"{who[0]} ({who[1]})" if who[1] else who[0]


# What is due ------------------------------------------------------------------------------------------------------------------------

FAILED = {"start": "Job failed to start", "stop": "Job failed while stopping", "restart": "Job failed to restart"}

# the state after one, by goal; `up` is running, or stopping where main is gone, and `down` pre-stop only where it lives
NEXT = {
    "start": {"waiting": "starting", "starting": "pre-start", "pre-start": "spawned", "spawned": "post-start", "post-start": "up",
              "running": "stopping", "pre-stop": "up", "stopping": "killed", "killed": "post-stop", "post-stop": "starting"},
    "stop": {"waiting": "waiting", "starting": "stopping", "pre-start": "stopping", "spawned": "stopping", "post-start": "stopping",
             "running": "down", "pre-stop": "stopping", "stopping": "killed", "killed": "post-stop", "post-stop": "waiting"},
}


def next_state(c, job, instance):
    to = NEXT[c.goal(instance)][c.state(instance)]
    lives = c.lives(instance, "main")
    if to == "up":
        return "running" if lives or "main" not in job.processes else "stopping"
    if to == "down":
        return "pre-stop" if lives else "stopping"
    return to


def may_leave(c, job, instance):
    state = c.state(instance)
    if state == "waiting":
        return c.goal(instance) == "start"
    if state in BLOCKING:
        return c.blocker(instance) is None
    if state == "spawned":
        return not c.awaits(instance, "main")
    if state == "running":
        is_gone = "main" in job.processes and not c.lives(instance, "main")
        return c.goal(instance) == "stop" or c.was_restarted(instance) or is_gone
    if state == "killed":
        return not c.lives(instance, "main")
    return not (c.awaits(instance, state) or c.lives(instance, state))


def job_event(c, job, who, instance, name):
    variables = {"JOB": who[0], "INSTANCE": who[1]}
    if name in ("stopping", "stopped"):
        failure = c.failure(instance)
        variables["RESULT"] = "failed" if failure else "ok"
        if failure:
            variables["PROCESS"] = failure[0]
            if failure[1]:
                kind, number = failure[1]
                variables["EXIT_STATUS" if kind == "exit" else "EXIT_SIGNAL"] = str(number) if kind == "exit" else SIGNALS[number]
    environment = c.env(instance)
    return name, variables | {key: environment[key] for key in job.export if key in environment and key not in variables}


def release(c, instance, is_failed):
    holders, text = c.holders(instance), c.status(instance)
    c.append(("Released", instance, is_failed))
    for place in holders:
        request = c.request_at(place)
        if request:
            c.append(("Replied", place, not is_failed, FAILED[request[1]] if is_failed else text))


def move(c, job, who, instance):
    left, to, lives = c.state(instance), next_state(c, job, instance), c.lives(instance, "main")
    c.append(("Entered", instance, to))
    process = "main" if to == "spawned" else to
    if process in job.processes:
        c.append(("Ordered", instance, process))
    emits = {"waiting": "stopped", "starting": "starting", "stopping": "stopping", "running": "started"}.get(to)
    if emits and not (to == "running" and left == "pre-stop"):
        c.append(("Queued", ("Entering", instance, to), *job_event(c, job, who, instance, emits)))
    if to == "killed" and lives:
        c.append(("Signalled", instance, job.kill_signal, False))
    if to == "waiting" or to == "running" and not job.task:
        release(c, instance, False)


def start(c, who, environment, holders):
    environment = environment | {"UPSTART_JOB": who[0], "UPSTART_INSTANCE": who[1]}
    instance = c.instance_named(who)
    if instance is None:
        instance = len(c)
        c.append(("Made", *who))
    elif c.goal(instance) == "start":
        return
    else:
        release(c, instance, False)
    c.append(("Aimed", instance, "start", environment, holders))


def offer(c, job, expression, event):
    tree = job.start_on if expression[0] == "StartOn" else job.stop_on
    c.append(("Offered", expression, event))
    seen = c.seen(expression)
    if not holds(tree, seen):
        return
    places = taken(tree, seen)
    c.append(("Fired", expression, tuple(places)))
    environment = c.job_env(job.name) if expression[0] == "StartOn" else {}
    for place in places:
        environment |= c.event_at(place)[1]
    names = " ".join(c.event_at(place)[0] for place in places)
    if expression[0] == "StartOn":
        environment |= {"UPSTART_EVENTS": names}
        name = expand(job.instance, environment)
        if name is not None:
            start(c, (job.name, name), environment, places)
    elif c.goal(expression[1]) == "start":
        release(c, expression[1], False)
        c.append(("Aimed", expression[1], "stop", environment | {"UPSTART_STOP_EVENTS": names}, places))


def move_first(c):
    for job in c.jobs:
        for name, instance in c.instances(job.name):
            if may_leave(c, job, instance):
                move(c, job, (job.name, name), instance)
                return True
    return False


def offer_first(c):
    step = list(c.in_step())
    event = next((entry[1] for entry in step if entry[0] == "Handled"), None)
    if event is None:
        return False
    offered = {entry[1] for entry in step if entry[0] == "Offered"}
    begins = len(c) - len(step)
    for job in c.jobs:
        known = [("StopOn", instance) for _, instance in c.instances(job.name) if instance < begins]
        for expression in known + [("StartOn", job.name)]:
            if expression not in offered:
                offer(c, job, expression, event)
                return True
    return False


def answer_at_once(c):
    """The answer to a request that doesn't wait and has none yet."""
    place = len(c) - 1 - len(list(c.in_step()))
    request = c.request_at(place)
    if not request or request[2] or any(entry[:2] == ("Replied", place) for entry in c[place:]):
        return False
    aimed = next((entry[1] for entry in c.in_step() if entry[0] in ("Aimed", "Restarted")), None)
    c.append(("Replied", place, True, "" if aimed is None else c.status(aimed)))
    return True


def settle(c):
    while move_first(c) or offer_first(c) or answer_at_once(c):
        pass


# What an input does -----------------------------------------------------------------------------------------------------------------


def end_itself(c, instance):
    if c.goal(instance) == "start":
        c.append(("Aimed", instance, "stop", {}, c.holders(instance)))


def fail(c, instance, cause, how):
    is_first = c.failure(instance) is None
    end_itself(c, instance)
    if is_first:
        c.append(("Failed", instance, (cause, how)))
        release(c, instance, True)


def judge(c, who, instance, process, how):
    """What the end of a process does; `how` is None where it couldn't be started."""
    job = c.job_named(who[0])
    if process in ("pre-start", "post-stop") and how != ("exit", 0):
        fail(c, instance, process, how)
    if process != "main":
        return
    if how is None:
        fail(c, instance, "main", None)
    elif c.goal(instance) == "start" and c.state(instance) in ("post-start", "running", "pre-stop"):
        is_normal, is_success = how in [("exit", status) for status in job.normal], how == ("exit", 0)
        if job.respawn and not is_normal and not (job.task and is_success):
            if c.may_respawn(job, instance):
                c.append(("Respawned", instance, c.now()))
            else:
                fail(c, instance, "respawn", None)
        elif is_success or is_normal:
            end_itself(c, instance)
        else:
            fail(c, instance, "main", how)


def turn(c, event, is_handled):
    if event is None:
        return
    if not is_handled:
        c.append(("Handled", event))
        return
    is_spoilt, (name, variables), origin = c.is_spoilt(event), c.event_at(event), c[event][1]
    c.append(("Finished", event))
    request = c.request_at(origin[1]) if origin[0] == "Outside" else None
    if request and request[2]:
        c.append(("Replied", origin[1], not is_spoilt, "Event failed" if is_spoilt else ""))
    if is_spoilt and not name.endswith("/failed"):
        c.append(("Queued", ("Spoilt", event), name + "/failed", variables))


def list_text(c):
    lines = []
    for job in c.jobs:
        instances = c.instances(job.name)
        lines += [c.status(instance) for _, instance in instances] or [f"{job.name} stop/waiting"]
    return "\n".join(lines)


def request_job(c, given, command, waits, name, variables):
    """One of the five requests that name a job: a refusal, a text to answer, or None where it is taken."""
    job = c.job_named(name)
    if job is None:
        return False, f"Unknown job: {name}"
    environment = c.job_env(name) | variables
    instance_name = expand(job.instance, environment)
    if instance_name is None:
        return False, f"Unknown parameter: {job.instance[1:]}"
    who, holders = (name, instance_name), [given] if waits else []
    instance = c.instance_named(who)
    if command == "start":
        if instance is not None and c.goal(instance) == "start":
            return False, f"Job is already running: {who_name(who)}"
        return start(c, who, environment, holders)
    if command == "status" and (instance is not None or not job.instance):
        return True, f"{name} stop/waiting" if instance is None else c.status(instance)
    if instance is None:
        return False, f"Unknown instance: {who_name(who)}"
    if command == "stop":
        if c.goal(instance) == "stop":
            return False, f"Job has already been stopped: {who_name(who)}"
        release(c, instance, False)
        return c.append(("Aimed", instance, "stop", variables, holders))
    if c.state(instance) != "running" or command == "reload" and not c.lives(instance, "main"):
        return False, f"Job is not running: {who_name(who)}"
    if command == "reload":
        c.append(("Signalled", instance, job.reload_signal, False))
        return True, ""
    release(c, instance, False)
    return c.append(("Restarted", instance, holders))


def take_request(c, given, command, waits, name, variables):
    if command == "emit":
        c.append(("Queued", ("Outside", given), name, variables))
        return
    answer = (True, list_text(c)) if command == "list" else request_job(c, given, command, waits, name, variables)
    if answer:
        c.append(("Replied", given, *answer))


def is_expected(c, given):
    if given[0] not in ("Spawned", "Refused", "Ended"):
        return True
    instance = c.instance_named(given[1])
    if instance is None:
        return False
    return c.lives(instance, given[2]) if given[0] == "Ended" else c.awaits(instance, given[2])


def after(c, given):
    """Takes one input that is expected: `("Emit", name, variables)`, `("Request", id, command, waits, name, variables)`, `("Spawned", who,
    process, pid)`, `("Refused", who, process)`, `("Ended", who, process, how)`, `("Clock", reading)` or `("Turn",)`."""
    place, kind = len(c), given[0]
    instance = c.instance_named(given[1]) if kind in ("Refused", "Ended") else None
    event, is_handled = c.turn_event() if kind == "Turn" else (None, False)
    c.append(("Given", given))
    if kind == "Emit":
        c.append(("Queued", ("Outside", place), given[1], given[2]))
    elif kind == "Request":
        take_request(c, place, *given[2:])
    elif kind == "Turn":
        turn(c, event, is_handled)
    elif kind == "Clock":
        overdue = [i for job in c.jobs for _, i in c.instances(job.name) if c.is_kill_due(job, i)]
        for i in overdue:
            c.append(("Signalled", i, 9, True))
    elif kind in ("Refused", "Ended"):
        judge(c, given[1], instance, given[2], given[3] if kind == "Ended" else None)
    settle(c)


# What is printed --------------------------------------------------------------------------------------------------------------------


def quoted(text):
    return '"' + text.replace("\\", "\\\\").replace('"', '\\"').replace("\n", "\\n").replace("\t", "\\t") + '"'


def bindings(variables):
    return [f"{key}={quoted(value)}" for key, value in variables.items()]


def output_lines(c, place):
    """The lines of what an entry asks for."""
    entry = c[place]
    if entry[0] == "Ordered":
        _, instance, process = entry
        environment = c.before(place).process_env(instance, process)
        return [f'spawn {who_name(c.made_at(instance))} {process} "/bin/{process}"'] + ["  " + text for text in bindings(environment)]
    if entry[0] == "Signalled":
        pid = c.before(place).pid(entry[1], "main")
        return [f"signal {who_name(c.made_at(entry[1]))} {pid} {SIGNALS[entry[2]]}"]
    if entry[0] == "Queued" and entry[1][0] != "Outside":
        return [" ".join(["event", entry[2]] + bindings(entry[3]))]
    if entry[0] == "Replied":
        return [f"reply {c.request_at(entry[1])[0]} {'ok' if entry[2] else 'failed'} {quoted(entry[3])}"]
    return []


def statement(given):
    """The line of a script that says an input."""
    def words(*parts):
        return " ".join('""' if part == "" else str(part) for part in parts)

    def pairs(variables):
        return [f"{key}={value}" for key, value in variables.items()]

    kind = given[0]
    if kind == "Emit":
        return words("emit", given[1], *pairs(given[2]))
    if kind == "Request":
        _, number, command, waits, name, variables = given
        flag = [] if waits or command in ("status", "list", "reload") else ["--no-wait"]
        return words("request", number, command, *flag, *([name] if name else []), *pairs(variables))
    if kind == "Spawned":
        return words("spawned", *given[1], given[2], given[3])
    if kind == "Refused":
        return words("refused", *given[1], given[2])
    if kind == "Ended":
        how = given[3]
        return words("ended", *given[1], given[2], how[0], SIGNALS[how[1]] if how[0] == "signal" else how[1])
    return words("clock", given[1]) if kind == "Clock" else "turn"


# A job's view -----------------------------------------------------------------------------------------------------------------------


def concerns(job, given):
    if given[0] == "Request":
        return given[2] in JOB_COMMANDS and given[4] == job
    return given[0] == "Clock" or given[0] in ("Spawned", "Refused", "Ended") and given[1][0] == job


def hears(c, job, event):
    """Whether the name stands in an expression in force of a job. An instance's own file is here that of its job."""
    its = c.job_named(job)
    return its is not None and (event in event_names(its.start_on) or bool(c.instances(job)) and event in event_names(its.stop_on))


def notices(c, job, place):
    """What comes to a job's notice by an entry."""
    entry = c[place]
    if entry[0] == "Given" and concerns(job, entry[1]):
        return [("Received", entry[1])]
    if entry[0] == "Handled":
        event = c.event_at(entry[1])
        return [("Arrived", event[0], tuple(event[1].items()))] if hears(c.before(place), job, event[0]) else []
    if entry[0] == "Finished":
        before = c.before(place)
        return [("Unblocked", name) for name, instance in before.instances(job) if before.blocker(instance) == entry[1]]
    return []


def view(c, job, begins=0):
    """What came to a job's notice from a place on, oldest first."""
    return [notice for place in range(begins, len(c)) for notice in notices(c, job, place)]
