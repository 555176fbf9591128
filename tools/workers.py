"""Workers that give texts to a parser, each text once."""

import os
import threading
from concurrent.futures import FIRST_EXCEPTION, ThreadPoolExecutor, wait

from progress import SECONDS_BETWEEN_LOOKS
from reports import amount
from running import Group
from trials import by_text


class Run:
    """A run of texts by workers that each have a parser. Trials that weren't run have no outcome."""

    def __init__(self, trials, make, judge, asked):
        """`make` makes a parser, and `judge` says of a trial with an outcome for which reason it is known, or None."""
        self.texts = by_text(trials)
        self.make, self.judge, self.asked = make, judge, asked
        self.left, self.lock = iter(self.texts), threading.Lock()
        self.done, self.failed, self.notes, self.stopped = 0, 0, set(), False

    def told(self):
        """How far it is."""
        return f"{self.done} of {amount(len(self.texts), 'text')}, {amount(self.failed, 'case')} failed"

    def next_text(self):
        with self.lock:
            enough = self.asked.stop_after is not None and self.failed >= self.asked.stop_after
            return None if self.stopped or enough else next(self.left, None)

    def note(self, text, outcome):
        with self.lock:
            if self.stopped:
                return
            for found in self.texts[text]:
                found.outcome = outcome
                found.known = self.judge(found)
            self.done += 1
            self.failed += sum(found.failed for found in self.texts[text])

    def work(self):
        parser = self.make()
        try:
            while (text := self.next_text()) is not None:
                self.note(text, parser.ask(text))
        finally:
            parser.close()
            self.notes.update(parser.notes)

    def stop(self):
        """Ends what runs, and takes no further text."""
        self.stopped = True
        Group.end_all()

    def watch(self, workers, line):
        """Tells the line how far it is, until all workers have ended or one has failed."""
        left = workers
        while left:
            line.tell(self.told())
            ended, left = wait(left, SECONDS_BETWEEN_LOOKS, FIRST_EXCEPTION)
            for worker in ended:
                worker.result()

    def run(self, line):
        jobs = self.asked.jobs or (1 if self.asked.batch else os.cpu_count() or 1)
        with ThreadPoolExecutor(jobs) as pool:
            workers = [pool.submit(self.work) for _ in range(min(jobs, len(self.texts)))]
            try:
                self.watch(workers, line)
            except BaseException:
                self.stop()
                raise
