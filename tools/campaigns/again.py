"""One run of a campaign once more, with all that tells of it."""
import pathlib
import subprocess
import sys

import places
from campaigns import judging, running


def make_again(job, name):
    """Makes the run of a job once more, and leaves in a folder of this name its faults, output and journal, the audit of it and
    its picture. What became of it is answered."""
    folder = pathlib.Path(name)
    folder.mkdir(exist_ok=True)
    (folder / "faults").write_text(job["faults"])
    done = running.call(job["romain"], job["words"], job["faults"], job["seconds"])
    if done is not None:
        _, output, report = done
        (folder / "output").write_bytes(output)
        (folder / "journal").write_text(report)
        audit(job, folder)
        draw(folder)
    return judging.judge(job, done)


def audit(job, folder):
    _, *words = job["words"]
    done = subprocess.run([places.ROOT / "romain", "audit", *words, "--faults", folder / "faults", "--journal", folder / "journal"],
                          stdin=subprocess.DEVNULL, stdout=subprocess.PIPE, stderr=subprocess.STDOUT)
    (folder / "audit").write_bytes(done.stdout)


def draw(folder):
    subprocess.run([sys.executable, places.ROOT / "tools/timeline.py", folder / "journal", "--faults", folder / "faults",
                    "-o", folder / "run.svg"], stdin=subprocess.DEVNULL, check=False)
