"""Times a program by the processor time that it takes, so that other work on the machine matters little."""
import resource
import subprocess

RUNS = 5


def processor_time():
    used = resource.getrusage(resource.RUSAGE_CHILDREN)
    return used.ru_utime + used.ru_stime


def best_time(program, text, runs=RUNS):
    """The least time of some runs on this input, and what the last one printed. Other work on the machine comes in bursts of
    seconds, so many short runs see a quiet moment that few long ones miss."""
    best = float('inf')
    for _ in range(runs):
        before = processor_time()
        answer = subprocess.run([program], input=text, capture_output=True, check=True).stdout
        best = min(best, processor_time() - before)
    return best, answer.decode().strip()
