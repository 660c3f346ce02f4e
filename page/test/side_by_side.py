"""Tests side by side: some workers, of which each takes the next test that is left, in a browser of its own."""
import multiprocessing

from checks import Checks


def counts(tests, jobs, work, stops=False):
    """How many checks passed and failed. `work` gets the tests that it takes one after the other, what counts its checks, and whether it is the first worker. With
    `stops` it may leave tests where a check failed."""
    left, told = multiprocessing.Queue(), multiprocessing.Queue()
    for it in [*tests, *jobs * [None]]:
        left.put(it)

    def begin(number):
        checks, done = Checks(), []

        def taken():
            for it in iter(left.get, None):
                yield it
                done.append(it)

        checks.topic("the browser", lambda: work(taken(), checks, number == 0))
        told.put((checks.passed, checks.failed, len(done)))

    workers = [multiprocessing.Process(target=begin, args=(number,)) for number in range(jobs)]
    for worker in workers:
        worker.start()
    for worker in workers:
        worker.join()
    left.cancel_join_thread()  # what is left of them is tested no more
    passed, failed, done = map(sum, zip((0, 0, 0), *(told.get() for worker in workers if worker.exitcode == 0)))
    if done < len(tests) and not (stops and failed):
        failed += 1
        print(f"FAILED: page: {len(tests) - done} of {len(tests)} parts weren't tested", flush=True)
    return passed, failed
