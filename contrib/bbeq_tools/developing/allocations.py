"""Runs of a program in which allocations are refused, by an object that is loaded before it.

The object is made by cc in a scratch folder, and the program has to be linked dynamically. It
counts the calls that come from the program itself, and keeps what stands on the stack at the first
refused one, so that the function can be named that wanted memory."""
import bisect
import mmap
import os
import shutil
import struct
import subprocess

from bbeq_tools.cli import Fault

STACK = 512  # Words of the stack that are kept.
MAKE_ROOM = ("rattle_", "libc::", "std_", "core_", "core::")  # The libraries that make room.
OBJECT = r"""
#define _GNU_SOURCE
#include <errno.h>
#include <fcntl.h>
#include <link.h>
#include <stdlib.h>
#include <string.h>
#include <sys/mman.h>
extern void *__libc_malloc(size_t);
extern void *__libc_realloc(void *, size_t);
extern void *__libc_memalign(size_t, size_t);
extern void *__libc_stack_end;
static struct { long count, base, stack[%d]; } *told;
static long first, onwards;
static unsigned long from, to;

static int bounds(struct dl_phdr_info *info, size_t size, void *unused) {
    told->base = info->dlpi_addr;
    for (int i = 0; i < info->dlpi_phnum; i++)
        if (info->dlpi_phdr[i].p_type == PT_LOAD && info->dlpi_phdr[i].p_flags & PF_X) {
            from = info->dlpi_addr + info->dlpi_phdr[i].p_vaddr;
            to = from + info->dlpi_phdr[i].p_memsz;
        }
    return 1;
}
__attribute__((constructor)) static void begin(void) {
    int file = open(getenv("REFUSE_FILE"), O_RDWR);
    told = mmap(0, sizeof *told, PROT_READ | PROT_WRITE, MAP_SHARED, file, 0);
    first = atol(getenv("REFUSE_FIRST"));
    onwards = atol(getenv("REFUSE_ONWARDS"));
    dl_iterate_phdr(bounds, 0);
}
static int refused(unsigned long caller, void *frame) {
    if (caller < from || to <= caller || !told) return 0;
    told->count++;
    if (!first || told->count < first || (told->count > first && !onwards)) return 0;
    size_t left = (char *)__libc_stack_end - (char *)frame;
    if (told->count == first)
        memcpy(told->stack, frame, left < sizeof told->stack ? left : sizeof told->stack);
    errno = ENOMEM;
    return 1;
}
#define REFUSED refused((unsigned long)__builtin_return_address(0), __builtin_frame_address(0))
void *malloc(size_t n) { return REFUSED ? 0 : __libc_malloc(n); }
void *realloc(void *p, size_t n) { return REFUSED ? 0 : __libc_realloc(p, n); }
void *aligned_alloc(size_t a, size_t n) { return REFUSED ? 0 : __libc_memalign(a, n); }
int posix_memalign(void **p, size_t a, size_t n)
{
    return REFUSED ? ENOMEM : (*p = __libc_memalign(a, n)) ? 0 : ENOMEM;
}
""" % STACK


class Runs:
    """A program under the object, and what the object told of the last run."""

    def __init__(self, folder, program):
        for tool in ("cc", "nm"):
            if not shutil.which(tool):
                raise Fault(f"{tool} is not installed")
        if not os.access(program, os.X_OK) or os.path.isdir(program):
            raise Fault(f"{program}: there is no such program")
        self.program, self.told = os.path.realpath(program), os.path.join(folder, "told")
        source, self.object = os.path.join(folder, "refuse.c"), os.path.join(folder, "refuse.so")
        with open(source, "w", encoding="ascii") as file:
            file.write(OBJECT)
        made = subprocess.run(["cc", "-O1", "-fno-omit-frame-pointer", "-shared", "-fPIC", "-o",
                               self.object, source], capture_output=True, text=True, check=False)
        if made.returncode:
            raise Fault(f"cc: {made.stderr.strip().splitlines()[0]}")
        with open(self.told, "wb") as file:
            file.truncate(8 * (2 + STACK))
        self.symbols = symbols_of(self.program)

    def run(self, words, first=0, onwards=False, seconds=None):
        """Status and bytes of a run whose allocation of this number is refused, or it and all later
        ones; none is where it is 0."""
        with open(self.told, "r+b") as file:
            file.write(bytes(8 * (2 + STACK)))
        env = {**os.environ, "LD_PRELOAD": self.object, "REFUSE_FILE": self.told,
               "REFUSE_FIRST": str(first), "REFUSE_ONWARDS": str(int(onwards))}
        done = subprocess.run([self.program, *words], capture_output=True, check=False, env=env,
                              timeout=seconds)
        return done.returncode, done.stdout

    def count(self):
        return self.numbers()[0]

    def numbers(self):
        with open(self.told, "r+b") as file, mmap.mmap(file.fileno(), 0) as held:
            return struct.unpack(f"{2 + STACK}q", held[:])

    def wanting(self):
        """The first function on the stack that is not of the libraries that make room."""
        _, base, *stack = self.numbers()
        starts = [start for start, _ in self.symbols]
        for word in stack:
            at = bisect.bisect_right(starts, word - base) - 1
            if 0 <= at < len(starts) - 1 and starts[0] <= word - base:
                name = self.symbols[at][1]
                if not name.startswith(MAKE_ROOM):
                    return name.split("::<#")[0]
        return "a function without a name"


def symbols_of(program):
    """The functions of the program by their places."""
    listed = subprocess.run(["nm", "-n", program], capture_output=True, text=True,
                            check=False).stdout
    rows = [line.split(" ", 2) for line in listed.splitlines() if line[:1] != " "]
    return [(int(start, 16), name) for start, kind, name in rows if kind in "tT"]
