"""Runs: one by its words and faults, many at once on this machine or by a cluster of Dask. What is sent to a cluster is this
module, that of judging and that of journals; the program and its files are at the same paths there."""
import concurrent.futures
import contextlib
import itertools
import os
import pathlib
import queue
import select
import signal
import tempfile
import zipfile


under_way = set()  # descriptors of programs that run


def call(romain, words, faults, seconds):
    """One run with its journal: status, output and report, or None where it doesn't come to its end. What goes in and out are
    files in memory, since to read pipes takes longer than a short run; and so does subprocess.Popen."""
    with memory_file(faults.encode()) as given, memory_file() as output, memory_file() as report:
        os.set_inheritable(given.fileno(), True)
        command = [romain, *words, "--journal", *(["--faults", f"/proc/self/fd/{given.fileno()}"] if faults else [])]
        child = os.posix_spawn(romain, command, os.environ, file_actions=[
            (os.POSIX_SPAWN_OPEN, 0, os.devnull, os.O_RDONLY, 0), (os.POSIX_SPAWN_DUP2, output.fileno(), 1),
            (os.POSIX_SPAWN_DUP2, report.fileno(), 2)])
        has_ended, status = ended(child, seconds)
        return (status, whole(output), whole(report).decode(errors="replace")) if has_ended else None


def memory_file(data=b""):
    file = open(os.memfd_create("campaign"), "w+b", buffering=0)
    file.write(data)
    return file


def whole(file):
    file.seek(0)
    return file.read()


def ended(child, seconds):
    """Whether a program ends so soon, and its status; after that it is killed."""
    descriptor = os.pidfd_open(child)
    under_way.add(descriptor)
    try:
        poll = select.poll()
        poll.register(descriptor, select.POLLIN)
        has_ended = bool(poll.poll(1000 * seconds))
    finally:
        under_way.discard(descriptor)
        kill(descriptor)
        os.close(descriptor)
        status = os.waitstatus_to_exitcode(os.waitpid(child, 0)[1])
    return has_ended, status


def kill(descriptor):
    with contextlib.suppress(OSError):  # of one that has ended
        signal.pidfd_send_signal(descriptor, signal.SIGKILL)


def run_job(job):
    """A job's row: it is run and judged."""
    from campaigns.judging import judge
    return job["key"], judge(job, call(job["romain"], job["words"], job["faults"], job["seconds"]))


def locally(jobs, count):
    """The jobs' rows as they come, `count` runs at once. Each has a thread, which mostly waits for the program. An interrupt is
    for the main thread alone: neither the other threads nor the programs that they started get it."""
    done, jobs = queue.SimpleQueue(), iter(jobs)
    pool = concurrent.futures.ThreadPoolExecutor(count, initializer=signal.pthread_sigmask,
                                                 initargs=(signal.SIG_BLOCK, {signal.SIGINT, signal.SIGTERM}))

    def begin(some):
        """How many of them there are, all of them begun."""
        begun = [pool.submit(run_job, job) for job in itertools.islice(jobs, some)]
        for future in begun:
            future.add_done_callback(done.put)
        return len(begun)

    try:
        waiting = begin(2 * count)
        while waiting:
            yield done.get().result()
            waiting += begin(1) - 1
    finally:
        pool.shutdown(wait=False, cancel_futures=True)
        for descriptor in list(under_way):
            kill(descriptor)
        pool.shutdown()


def on_cluster(jobs, address):
    """The same on a cluster of Dask. Runs of a worker that dies are made again by another."""
    import distributed
    from distributed.diagnostics.plugin import UploadFile
    jobs = iter(jobs)
    with distributed.Client(address) as client, tempfile.TemporaryDirectory() as folder:
        # for workers that come later, too
        client.register_worker_plugin(UploadFile(modules(pathlib.Path(folder) / "campaigns.zip")), name="campaigns")
        window = 4 * max(1, sum(client.ncores().values()))
        waiting = distributed.as_completed([submit(client, job) for job in itertools.islice(jobs, window)])
        for future in waiting:
            yield future.result()
            for job in itertools.islice(jobs, 1):
                waiting.add(submit(client, job))


def modules(path):
    """The modules that a worker needs, in a file that is sent there."""
    here = pathlib.Path(__file__).resolve().parent
    with zipfile.ZipFile(path, "w") as file:
        for name in "__init__", "running", "judging":
            file.write(here / f"{name}.py", f"campaigns/{name}.py")
        file.write(here.parent / "journals.py", "journals.py")
    return str(path)


def submit(client, job):
    return client.submit(run_job, job, pure=False, retries=3)
