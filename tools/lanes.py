# SPDX-License-Identifier: MIT
"""Tasks side by side: as many as processors and memory allow, each once the tasks that it waits for
have ended."""
from concurrent.futures import FIRST_COMPLETED, ThreadPoolExecutor, wait
from dataclasses import dataclass
from typing import Callable

# What each further job of a task adds to its memory and to its speed, and the most jobs that one
# gains from.
JOB_MEMORY, JOB_SPEED, MOST_JOBS = 0.6, 0.8, 4


@dataclass(eq=False)
class Task:
    """What is done at once: its name, the names of the tasks that it waits for, the seconds that it
    takes one processor, its memory in octets, and the call that does it, by so many jobs, and
    answers whether it succeeded. One whose tasks before it failed is not called."""

    name: str
    waits: list
    seconds: float
    memory: float
    call: Callable

    def seconds_by(self, jobs):
        return self.seconds / (1 + JOB_SPEED * (jobs - 1))

    def memory_by(self, jobs):
        return self.memory * (1 + JOB_MEMORY * (jobs - 1))


class Lanes:
    """The tasks, and the processors and the octets of memory that they share."""

    def __init__(self, tasks, processors, memory):
        self.tasks, self.processors, self.memory = tasks, processors, memory
        self.named, self.behind = {it.name: it for it in tasks}, {}
        self.waits = {it.name: [name for name in it.waits if name in self.named] for it in tasks}
        for task in reversed(tasks):
            self.behind[task.name] = task.seconds + self.behind.get(task.name, 0)
            for name in self.waits[task.name]:
                self.behind[name] = max(self.behind.get(name, 0), self.behind[task.name])

    def granted(self, left, running, ended):
        """The tasks that begin now, each with its jobs. That with the longest chain of tasks behind
        it comes first, and gets what the next ones, at most half of the processors, do not."""
        ready = sorted((it for it in left if ended.issuperset(self.waits[it.name])),
                       key=lambda it: -self.behind[it.name])
        idle = self.processors - sum(running.values())
        room = self.memory - sum(it.memory_by(jobs) for it, jobs in running.items())
        granted = []
        for at, task in enumerate(ready):
            if idle < 1 or (running or granted) and task.memory > room:
                break
            others = min(len(ready) - at - 1, idle // 2)
            fitting = 1 + int((room / task.memory - 1) / JOB_MEMORY)
            jobs = max(1, min(MOST_JOBS, idle - others, fitting))
            granted.append((task, jobs))
            idle, room = idle - jobs, room - task.memory_by(jobs)
        return granted

    def run(self):
        """Runs the tasks and answers the names of those that did not succeed."""
        left, running, calls, ended, failed = [*self.tasks], {}, {}, set(), set()
        with ThreadPoolExecutor(self.processors) as pool:
            while left or running:
                for task, jobs in self.granted(left, running, ended):
                    left.remove(task)
                    running[task] = jobs
                    is_lost = not failed.isdisjoint(self.waits[task.name])
                    call = (lambda _: False) if is_lost else task.call
                    calls[pool.submit(call, jobs)] = task
                for call in wait(calls, return_when=FIRST_COMPLETED).done:
                    task = calls.pop(call)
                    del running[task]
                    ended.add(task.name)
                    failed |= set() if call.result() else {task.name}
        return failed

    def seconds_left(self, ended, begun):
        """About how many seconds all takes from now on, where those tasks have ended, and those of
        `begun` ran for so many seconds, by so many jobs."""
        left = [it for it in self.tasks if it.name not in ended and it.name not in begun]
        running = {self.named[name]: jobs for name, (_, jobs) in begun.items()}
        ends = {task: max(task.seconds_by(jobs) - begun[task.name][0], 0)
                for task, jobs in running.items()}
        now, ended = 0.0, set(ended)
        while left or running:
            for task, jobs in self.granted(left, running, ended):
                left.remove(task)
                running[task], ends[task] = jobs, now + task.seconds_by(jobs)
            first = min(running, key=ends.get)
            now = max(now, ends.pop(first))
            del running[first]
            ended.add(first.name)
        return now
