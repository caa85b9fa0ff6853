"""What the tests of the Python package share: arrays, jobs and answers of the package as plain lists, and the count of comparisons."""
import recorder
from recorder import arrays


class Compared:
    """The count of comparisons."""

    def __init__(self):
        self.agreed = self.wrong = 0

    def expect(self, what, got, want):
        if got == want:
            self.agreed += 1
        else:
            self.wrong += 1
            print("%s: got %.300r, expected %.300r" % (what, got, want))


# ---- arrays, jobs and answers as lists

def numbers_of(values):
    return arrays.filled(values, arrays.NUMBERS)


def counts_of(values):
    return arrays.filled(values, arrays.COUNTS)


def listed(buffer):
    return memoryview(buffer).cast("B").cast(memoryview(buffer).format).tolist() if memoryview(buffer).nbytes else []


def job_of(numbers):
    g, m, n1, f1, n2, f2, n3, f3, s = numbers
    return recorder.Job(g, m, recorder.Axis(n1, f1), recorder.Axis(n2, f2), recorder.Axis(n3, f3), s)


def job_numbers(job):
    return [job.group, job.modulus, *(x for axis in (job.a, job.b, job.c) for x in (axis.length, axis.factors)), job.state]


def outcome(call, *arguments):
    """What a call gives, and the number of its refusal or 0."""
    try:
        return 0, call(*arguments)
    except recorder.Refused as refused:
        return refused.number, None
