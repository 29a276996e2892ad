"""Runs of the program on many pairs, by GNU parallel where it is installed, on the processors of
this machine or on hosts, and one after another otherwise."""
import contextlib
import json
import os
import shutil
import signal
import subprocess
import sys
import tempfile
import time

from bbeq_tools.cli import Fault
from bbeq_tools.runs import timed
from bbeq_tools.runs.kept import answer_of


def has_parallel():
    """Whether `parallel` is there, and that of GNU."""
    if not shutil.which("parallel"):
        return False
    done = subprocess.run(["parallel", "--version"], capture_output=True, text=True,
                          errors="replace", check=False)
    return done.stdout.startswith("GNU parallel")


def run_jobs(jobs, program, words, log):
    """Runs each job, and yields it with its answer as it ends. A job that no host answers is left
    out."""
    if has_parallel():
        yield from by_parallel(jobs, program, words, log)
        return
    if words.hosts:
        raise Fault("--hosts needs GNU parallel (Debian: apt-get install parallel)")
    for job in jobs:
        yield job, answer_of(*timed.answer([program, *job.words, "--", job.specification,
                                            job.implementation], words.timeout))


def by_parallel(jobs, program, words, log):
    by_name = {job.name: job for job in jobs}
    with tempfile.TemporaryDirectory(prefix="bbeq-run") as folder:
        command, table = ["parallel", "--plain", "--colsep", "\t", "--joblog",
                          log], os.path.join(folder, "jobs")
        if words.jobs:
            command += ["--jobs", str(words.jobs)]
        is_sent = words.hosts and any(line.rpartition("/")[2] != ":"
                                      for line in host_lines(words.hosts))
        if words.hosts:
            command += ["--sshloginfile", os.path.realpath(words.hosts)]
        if is_sent:
            command += sent(folder, words.hosts)
            jobs, program = [staged(folder, job) for job in jobs], "./" + staged_program(folder,
                                                                                         program)
        with open(table, "w", encoding="utf-8", errors="surrogateescape") as file:
            for job in jobs:
                file.write("\t".join((job.name, json.dumps(job.words), job.specification,
                                      job.implementation)) + "\n")
        script = "./timed.py" if is_sent else os.path.realpath(timed.__file__)
        command += ["--arg-file", table, "python3", script, "{1}", str(words.timeout or 0), program,
                    "{2}", "{3}", "{4}"]
        with started(command, folder) as child:
            for name, answer in answers_in(child.stdout):
                yield by_name[name], answer


def sent(folder, hosts):
    """The words that send the program and the texts to hosts, into a folder that is taken away. A
    host that cannot be reached leaves its jobs to others."""
    place = os.path.basename(folder)
    os.symlink(".", os.path.join(folder, place))  # A job of this machine runs there too.
    return ["--workdir", place, "--basefile", "bbeq", "--basefile", "timed.py", "--transferfile",
            "{3}", "--transferfile", "{4}", "--cleanup", "--retries",
            str(len(host_lines(hosts)) + 1)]


def host_lines(hosts):
    try:
        with open(hosts, encoding="utf-8") as file:
            found = [line.strip()
                     for line in file if line.strip() and not line.lstrip().startswith("#")]
    except (OSError, UnicodeDecodeError) as error:
        raise Fault(f"{hosts}: {getattr(error, 'strerror', 'it is no list of hosts')}") from None
    if not found:
        raise Fault(f"{hosts}: no host stands in it")
    return found


def staged(folder, job):
    """The job with copies of its texts in the folder that is sent."""
    os.makedirs(os.path.join(folder, job.name))
    names = [os.path.join(job.name, name) for name in ("spec.v", "impl.v")]
    for path, name in zip((job.specification, job.implementation), names):
        shutil.copyfile(path, os.path.join(folder, name))
    return job._replace(specification=names[0], implementation=names[1])


def staged_program(folder, program):
    shutil.copy(program, os.path.join(folder, "bbeq"))
    shutil.copy(timed.__file__, os.path.join(folder, "timed.py"))
    return "bbeq"


@contextlib.contextmanager
def started(command, folder):
    """Runs `parallel`; where this script is ended, so is what it runs. What it tells is told, each
    line once."""
    told = os.path.join(folder, "told")
    with open(told, "w+b") as errors, subprocess.Popen(command, cwd=folder,
                                                       stdin=subprocess.DEVNULL,
                                                       stdout=subprocess.PIPE, stderr=errors,
                                                       start_new_session=True) as child:
        try:
            yield child
        except BaseException:
            end_session(child)
            raise
        finally:
            child.stdout.close()
            child.wait()
            errors.seek(0)
            for line in dict.fromkeys(errors.read().decode("utf-8", "replace").splitlines()):
                print(f"run: {line}", file=sys.stderr)


def end_session(child):
    """Ends `parallel` by the two signals that it wants, and a job that it was starting
    meanwhile."""
    for _ in range(2):
        child.send_signal(signal.SIGTERM)
        time.sleep(0.1)
    child.stdout.close()
    child.wait()
    for name in os.listdir("/proc"):
        with contextlib.suppress(OSError):
            if name.isdecimal() and os.getsid(int(name)) == child.pid:
                os.kill(int(name), signal.SIGTERM)


def answers_in(stream):
    """The answers that jobs printed, each whole and with its job's name before it."""
    while header := stream.readline():
        words = header.decode("latin-1").split()
        if len(words) == 5 and words[4].isdecimal():
            report = stream.read(int(words[4])).decode("latin-1")
            stream.readline()
            yield words[0], answer_of(words[1:4], report)
