"""What mypy says of a user's program, as strictly as it can."""
import os
import shutil
import subprocess
import unittest

from planner.tests.helpers import TOP, InFolder

USER = '''
import asyncio
import datetime
import psmax

def site() -> psmax.Project:
    made = psmax.Project("site")
    made.calendar = psmax.WorkTime(datetime.date(2026, 3, 2), holidays=["2026-03-06"])
    crew = made.resource("crew", 4)
    dig = made.activity("dig", "1,5 d", {crew: 3}, due=datetime.date(2026, 3, 9))
    made.lag(dig.end, made.end, at_least="2 d", at_most=9)
    made.absence(crew, "2026-03-03", None, 1)
    dig.duration, crew.capacity = 4, 5
    return made

def value(told: psmax.Progress) -> bool:
    return told.gap is not None and told.gap < 0.1 and told.makespan is not None

def solved(made: psmax.Project) -> datetime.date | None:
    answer: psmax.Answer = made.solve(10, 2, until=value, start={"dig": 0}, hint=None, frozen={made["dig"]: 0})
    if answer.status == psmax.Status.OPTIMAL and answer.record is not None:
        proof: psmax.Proof = answer.record.verify()
        print(proof.bound, answer.rows(made.float(answer)), answer.chart(), answer.to_dict())
    again: psmax.Answer = psmax.Answer.from_dict(made, answer.to_dict())
    why: psmax.Why = made.why("2026-03-09")
    print([part for part in why.parts if isinstance(part, psmax.Lag)], made.whatif(1)[0].subject)
    return made.replan(again, "2026-03-03", started={"dig": "2026-03-02"})["dig"].start_date

async def listened(made: psmax.Project) -> psmax.Answer:
    async with made.search(10, record=False) as search:
        async for told in search:
            print(told.value)
    return await search

with site().search(10, gap=0.1) as search:
    for told in search:
        print(told.bound, told.schedule and told.schedule["dig"].end)
    search.cancel()
print(search.result(1.0).makespan, asyncio.run(listened(site())), solved(site()))
for activity in site():
    print(activity.name)
'''
WRONG = '''
import psmax
made = psmax.Project()
made.resource("crew", "4")
made.solve(until=3).makespan + 1
made["dig"].start_date
'''


@unittest.skipUnless(shutil.which("mypy"), "mypy isn't here")
class Types(InFolder):
    def said(self, text: str) -> list[str]:
        """Each fault, by its kind."""
        words = ["mypy", "--strict", "--config-file", TOP / "pyproject.toml", self.file("user.py", text)]
        ran = subprocess.run([*map(str, words)], cwd=TOP, capture_output=True, text=True, env={
            **os.environ, "MYPY_CACHE_DIR": str(TOP / "build" / "mypy")})
        lines = [line for line in ran.stdout.splitlines() if "error:" in line]
        return [line.rpartition("  ")[2] for line in lines] or ([] if ran.returncode == 0 else self.fail(ran.stdout))

    def test_a_program(self) -> None:
        self.assertEqual(self.said(USER), [])
        self.assertEqual(sorted(self.said(WRONG)), ["[arg-type]", "[arg-type]", "[attr-defined]", "[operator]"])
