"""What `plan watch` shows: the plans of the day, and what is wrong with the table as it stands. Threads change it and
wait for changes, of which each has a number."""
import os
import threading
from dataclasses import replace
from typing import Any

from .plans import Plan, PlanSchedule

MOST = 20  # plans that one can go back to


class Screen:
    def __init__(self) -> None:
        self.changed = threading.Condition()
        self.version, self.count, self.is_open = 0, 0, True
        self.plans: dict[int, Plan] = {}
        self.latest = 0  # the number of the plan that is made
        self.shown = 0  # and of the one on the screen, which is an older one until something is known
        self.faults: tuple[str, ...] = ()

    def change(self) -> None:
        self.version += 1
        self.changed.notify_all()

    def tell(self, faults: tuple[str, ...]) -> None:
        """What is wrong with the table; nothing once it is right again."""
        with self.changed:
            if faults != self.faults:
                self.faults = faults
                self.change()

    def add(self, plan: Plan) -> int:
        """A new plan, which is shown once something is known of it. The oldest one goes."""
        with self.changed:
            self.count += 1
            self.latest = self.count
            self.plans[self.latest] = plan
            for number in [number for number in self.plans if number != self.shown][:-MOST]:
                self.forget(number)
            self.faults = ()
            self.change()
            return self.latest

    def forget(self, number: int) -> None:
        record = self.plans.pop(number).known.record
        if record is not None:
            os.unlink(record.path)

    def learn(self, number: int, **news: Any) -> None:
        """What is known of a plan by now."""
        with self.changed:
            if number in self.plans:
                self.plans[number] = replace(self.plans[number], **news)
                if number == self.latest and self.plans[number].is_known():
                    self.shown = number
                self.change()

    def show(self, number: int) -> bool:
        """An earlier plan, from which the next one is made. Whether it is there."""
        with self.changed:
            if number in self.plans and self.plans[number].is_known():
                self.shown = self.latest = number
                self.change()
                return True
            return False

    def close(self) -> None:
        with self.changed:
            self.is_open = False
            self.change()

    def plan(self) -> Plan | None:
        """The one on the screen."""
        with self.changed:
            return self.plans.get(self.shown)

    def schedule(self) -> PlanSchedule | None:
        """That of the plan on the screen, or of the one before where it has none."""
        plan = self.plan()
        return None if plan is None else plan.schedule or plan.before

    def wait(self, after: int, seconds: float) -> bool:
        """Whether there is a change behind this one, within this time."""
        with self.changed:
            return self.changed.wait_for(lambda: self.version > after or not self.is_open, seconds)
