"""What the built program does if memory, files or the output are refused: parts of `tests/run`.

Each part takes the program and a folder of its own, and yields a name, what was found, and what is wanted.
"""
import os
import resource
import shutil
import signal
import subprocess
import threading

from calls import call, write

MOST_BYTES = 16_777_216
MEBIBYTE = 1 << 20
# With less room for its process a job may be out of memory and not say it.
LEAST_ROOM = 3.4 * MEBIBYTE
OUT_OF_MEMORY = b"hazard: out of memory\n"
DONE, TOO_LONG, SINK, MEMORY = 0, 7, 8, 9
LATCH = "INPUT(r)\nINPUT(s)\nOUTPUT(q)\nOUTPUT(qb)\nq = NOR(r, qb)\nqb = NOR(s, q)\n"
SCRIPT = "start r=1 s=1\nchange r=0 s=0\n"
# An order that is used, one that is idle, an ideal wire from which an order follows, and a second start.
ORDERED = "order qb(1) qb(2)\norder q(2) q(1) 3\nstart r=0 s=1\nideal q(1)\nchange r=1 s=0\nstart r=1 s=1\nchange r=0 s=0\nchange\n"
COVERS = ".inputs s x y\n.outputs z\n.names $false\n.names s x y z\n11- 1\n0-1 1\n"
PATTERNS = "hold q=0\nfrom 11 to 00\nfrom 10 to 00\nfrom 00 to 01\nfrom 01 to 00\n"
# More than a block of patterns.
MANY_PATTERNS = "from 11 to 00\n" * 512 + "from 10 to 00\n"

# An allocator in front of the C library's: it counts the requests that the program makes once it has begun, and refuses the one with
# the number REFUSED. In the end it writes into the file COUNTED their number, and whether the request after the refused one was for no more.
ALLOCATOR = r"""
#define _GNU_SOURCE
#include <errno.h>
#include <stdio.h>
#include <stdlib.h>

void *__libc_malloc(size_t), *__libc_calloc(size_t, size_t), *__libc_realloc(void *, size_t), *__libc_memalign(size_t, size_t);
static long refused, made, has_begun, asked_again;
static size_t refused_size;

__attribute__((constructor)) static void begin(void) {
  const char *number = getenv("REFUSED");
  refused = number ? atol(number) : 0;
  has_begun = 1;
}

__attribute__((destructor)) static void end(void) {
  has_begun = 0;
  const char *name = getenv("COUNTED");
  FILE *file = name ? fopen(name, "w") : NULL;
  if (file) {
    fprintf(file, "%ld %ld", made, asked_again);
    fclose(file);
  }
}

static int refuses(size_t size) {
  if (!has_begun) return 0;
  if (++made == refused + 1) asked_again = size <= refused_size;
  if (made != refused) return 0;
  refused_size = size;
  errno = ENOMEM;
  return 1;
}

void *malloc(size_t size) { return refuses(size) ? NULL : __libc_malloc(size); }
void *calloc(size_t count, size_t size) { return refuses(count * size) ? NULL : __libc_calloc(count, size); }
void *realloc(void *old, size_t size) { return refuses(size) ? NULL : __libc_realloc(old, size); }
void *memalign(size_t align, size_t size) { return refuses(size) ? NULL : __libc_memalign(align, size); }
void *aligned_alloc(size_t align, size_t size) { return memalign(align, size); }
int posix_memalign(void **place, size_t align, size_t size) {
  void *found = memalign(align, size);
  if (!found) return ENOMEM;
  *place = found;
  return 0;
}
"""


def heard(program, words, folder, out=subprocess.PIPE, **more):
    """The status and the bytes on both outputs. Signals that the system sends for a refused write are ignored, as by a shell's `trap ''`."""
    done = call(program, words, folder, out, timeout=60, restore_signals=False, **more)
    return done.returncode, done.stdout or b"", done.stderr


def run(program, words, folder, out=subprocess.PIPE, **more):
    """The status and the bytes on standard output."""
    return heard(program, words, folder, out, **more)[:2]


def jobs(program, folder):
    """The words of each job on the latch, and of a demo, with their files."""
    netlist, script = write(folder, "latch.bench", LATCH), write(folder, "latch.txt", SCRIPT)
    report = run(program, ["analyse", netlist, script], folder)[1]
    runs = write(folder, "latch.runs", report[report.index(b"runs 2\n"):])
    return [["analyse", netlist, script], ["analyse", netlist, script, "--show", "all"], ["edges", netlist, script], ["edges", netlist, write(folder, "latch.orders", ORDERED)], ["explore", netlist, script], ["split", netlist, script], ["replay", netlist, runs], ["convert", netlist, runs],
            ["vcd", netlist, runs], *[[job, netlist, write(folder, "latch.patterns", PATTERNS)] for job in ("batch", "reset")],
            ["batch", netlist, write(folder, "many.patterns", MANY_PATTERNS)], ["demo", "1"],
            ["analyse", write(folder, "mux.blif", COVERS), write(folder, "mux.txt", "start s=1 x=1 y=1\nchange s=0\n")]]


def is_front(status, text, whole):
    """Whether a job that was refused memory wrote a front of its text, or all of it with its own status."""
    return whole[1].startswith(text) if status == MEMORY else (status, text) == whole


def refused_memory(program, folder):
    """Each job with each of its requests for memory refused in turn."""
    compiler = shutil.which("cc") or shutil.which("gcc") or shutil.which("clang")
    if not compiler:
        print("skipped: requests for memory refused in turn, which needs a C compiler")
        return
    library = os.path.join(folder, "allocator.so")
    built = subprocess.run([compiler, "-shared", "-fPIC", "-O1", "-o", library, os.path.join(folder, write(folder, "allocator.c", ALLOCATOR))])
    yield "the allocator is compiled", built.returncode, 0
    counted = os.path.join(folder, "counted")
    for words in jobs(program, folder):
        whole = run(program, words, folder)
        around = {"LD_PRELOAD": library, "COUNTED": counted}
        yield f"{words} with no request refused", run(program, words, folder, env=around), whole
        with open(counted) as file:
            requests = int(file.read().split()[0])
        yield f"{words} asks for memory", requests > 10, True
        asked_again = []
        for number in range(1, requests + 1):
            status, text, told = heard(program, words, folder, env={**around, "REFUSED": str(number)})
            yield f"{words} with request {number} of {requests} refused", is_front(status, text, whole) or (status, text), True
            yield f"{words} says so of request {number} of {requests}", told, OUT_OF_MEMORY if status == MEMORY else b""
            if status != MEMORY:
                asked_again.append(number)
                with open(counted) as file:
                    yield f"{words} asks for less if request {number} of {requests} is refused", file.read().split()[1], "1"
        # A list of the library that can't grow by half asks once more, for one item: its first request may be refused. A script with
        # assumptions of time has more lists.
        most = 8 if words[0] == "edges" else 3
        yield f"{words} is out of memory at all but {most} requests at most", asked_again[most:], []
        status, text = run(program, words, folder, env={**around, "REFUSED": str(requests + 1)})
        yield f"{words} with no request left to refuse", (status, text), whole


def memory_limits(program, folder):
    """Each job with more and more room for its process: it does not start, is out of memory, or does all of its work. A chain needs more room
    than the program itself, so its job ends with status 9."""
    write(folder, "chain.bench", "INPUT(a)\n" + "".join(f"g{k} = NOT({f'g{k - 1}' if k else 'a'})\n" for k in range(10_000)))
    chain = ["analyse", "chain.bench", write(folder, "chain.txt", "start a=0\nchange a=1\n")]
    for words in [*jobs(program, folder), chain]:
        whole, ends = run(program, words, folder), set()
        for room in range(2 * MEBIBYTE, 24 * MEBIBYTE, MEBIBYTE // 2):
            limit = lambda: resource.setrlimit(resource.RLIMIT_AS, (room, room))
            status, text, told = heard(program, words, folder, preexec_fn=limit)
            has_started = not (text == b"" and (status == 127 or status < 0) and not ends)
            if has_started:
                ends.add(status)
                yield f"{words} in {room} bytes", is_front(status, text, whole) or (status, text), True
            if has_started and room > LEAST_ROOM:
                yield f"{words} says so in {room} bytes", told, OUT_OF_MEMORY if status == MEMORY else b""
        yield f"{words} has room in the end", whole[0] in ends, True
    yield "a chain without room", MEMORY in ends, True


def refused_output(program, folder):
    """Outputs that take some bytes and no more: a file of a limited size, and a reader that goes away."""
    for words in jobs(program, folder):
        whole = run(program, words, folder)[1]
        for size in sorted({0, 1, 2, 7, len(whole) // 2, len(whole) - 1}):
            limit = lambda: resource.setrlimit(resource.RLIMIT_FSIZE, (size, size))
            with open(os.path.join(folder, "taken"), "wb") as file:
                status = run(program, words, folder, file, preexec_fn=limit)[0]
            with open(os.path.join(folder, "taken"), "rb") as file:
                yield f"{words} into a file of {size} bytes", (status, file.read()), (SINK, whole[:size])
    # a report of more than 300 MB
    gates = "".join(f"g{k} = NOT({'a' if k == 0 else f'g{k - 1}'})\n" for k in range(1_000))
    netlist = write(folder, "chain.bench", "INPUT(a)\n" + gates)
    script = write(folder, "chain.txt", "start a=0\n" + "change a=1\nchange a=0\n" * 5_000)
    for size in (0, 1, 65_536, 1_000_000):
        reader, writer = os.pipe()
        started = subprocess.Popen([program, "analyse", netlist, script], cwd=folder, stdin=subprocess.DEVNULL, stdout=writer, stderr=subprocess.DEVNULL)
        os.close(writer)
        left = size
        while left and (piece := os.read(reader, left)):
            left -= len(piece)
        os.close(reader)
        yield f"a reader that closes after {size} bytes", (left, started.wait(60)), (0, SINK)


def strange_files(program, folder):
    """First files that end late, early or never."""
    script = write(folder, "latch.txt", SCRIPT)
    whole = run(program, ["analyse", write(folder, "latch.bench", LATCH), script], folder)
    yield "an endless file", run(program, ["analyse", "/dev/zero", script], folder), (TOO_LONG, b"refused: first file too long\n")
    yield "an endless second file", run(program, ["replay", "latch.bench", "/dev/zero"], folder), (TOO_LONG, b"refused: second file too long\n")
    yield "an empty device", run(program, ["analyse", "latch.bench", "/dev/null"], folder), (4, b"refused: script line 0: order\n")
    pieces = [
        ("in pieces of a byte", [LATCH[at:at + 1] for at in range(len(LATCH))], whole),
        ("that ends in the middle of a line", [LATCH[:20], LATCH[20:30]], (3, b"refused: netlist line 4: form\n")),
        ("that grows beyond the most bytes", [LATCH] + ["#" * MEBIBYTE] * 17, (TOO_LONG, b"refused: first file too long\n")),
    ]
    for number, (name, texts, wanted) in enumerate(pieces):
        pipe = os.path.join(folder, f"pipe{number}")
        os.mkfifo(pipe)
        feeder = threading.Thread(target=feed, args=(pipe, texts))
        feeder.start()
        yield f"a first file {name}", run(program, ["analyse", pipe, script], folder), wanted
        feeder.join(60)
    pipe = os.path.join(folder, "pipe1")
    feeder = threading.Thread(target=feed, args=(pipe, ["y = NOT(\n"]))
    feeder.start()
    done = call(program, ["analyse", pipe, script], folder, timeout=60)
    told = f"{pipe}:1: (no plain file, so its line can't be shown)\n".encode()
    yield "a fault in a pipe", (done.returncode, done.stdout, done.stderr), (3, b"refused: netlist line 1: form\n", told)
    feeder.join(60)


def feed(pipe, texts):
    """Writes the pieces into a pipe, until the reader goes away."""
    with open(pipe, "wb", buffering=0) as file:
        try:
            for text in texts:
                file.write(text.encode())
        except BrokenPipeError:
            pass


PARTS = (refused_memory, memory_limits, refused_output, strange_files)
assert signal.getsignal(signal.SIGPIPE) == signal.SIG_IGN
