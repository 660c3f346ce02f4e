"""Counts of what passed and what failed. A topic that breaks off is one failure, told in a line, and the next topic is gone on with."""


class Checks:
    def __init__(self):
        self.passed = self.failed = 0

    def expect(self, what, found, wanted=True):
        if found == wanted:
            self.passed += 1
        else:
            self.failed += 1
            print(f"FAILED: page: {what}: {shortened(found)}, and not {shortened(wanted)}", flush=True)

    def topic(self, name, run):
        try:
            run()
        except Exception as fault:  # whatever it is, it is a failure of this topic
            self.failed += 1
            print(f"FAILED: page: {name} broke off: {type(fault).__name__}: {shortened(str(fault))}", flush=True)


def shortened(found):
    told = repr(found)
    return told if len(told) <= 300 else told[:300] + ".."
