"""A process that ends runs, and removes their folder, where the command that started them is
killed: it reads a pipe whose other end the command alone has."""
import os
import signal


class Guard:
    def __init__(self, folder):
        self.folder = folder
        # The pipe is no standard stream, where the caller has closed one.
        while (nothing := os.open(os.devnull, os.O_RDWR)) < 3:
            pass
        os.close(nothing)
        read, self.pipe = os.pipe()
        self.process = os.fork()
        if not self.process:
            os.close(self.pipe)
            try:
                watch(read, folder)
            finally:
                os._exit(0)
        os.close(read)

    def add(self, group):
        os.write(self.pipe, b"+%d\n" % group)

    def drop(self, group):
        os.write(self.pipe, b"-%d\n" % group)

    def close(self):
        try:
            os.rmdir(self.folder)  # An empty one does not have to wait for the other process.
        except OSError:
            pass
        os.close(self.pipe)
        os.waitpid(self.process, 0)


def watch(pipe, folder):
    """Reads which process groups begin and end. At the end of the pipe it kills those that are
    left."""
    os.setsid()
    for number in (signal.SIGINT, signal.SIGTERM, signal.SIGHUP):
        signal.signal(number, signal.SIG_IGN)
    nothing = os.open(os.devnull, os.O_RDWR)
    for stream in range(3):
        os.dup2(nothing, stream)
    groups = set()
    with open(pipe, "rb", buffering=0) as lines:
        for line in lines:
            (groups.add if line[:1] == b"+" else groups.discard)(int(line[1:]))
    for group in groups:
        try:
            os.killpg(group, signal.SIGKILL)
        except ProcessLookupError:
            pass
    if os.path.exists(folder):
        import shutil
        shutil.rmtree(folder, ignore_errors=True)
