"""Runs the program with one request for memory refused: each of the first 1,000 requests of a laboratory, and then each
hundredth up to its last, in a run of its own.

    tools/starve            six runs: one board, four boards by two workers, a usual script, sixteen boards, two boards
                            that are saved, and these loaded again
    tools/starve FIRST      each of the first FIRST requests

A run must end like the run that is refused nothing, or with 1 and a beginning of what that one prints: never by a
signal, late, with other bytes, or with more blocks of memory not freed. Each has a folder of its own, with the snapshot
of an earlier run if it takes one back. Afterwards the folder must hold what it held before, or what it holds after a
run that is refused nothing: a snapshot is whole or absent. It prints which runs end otherwise, and a line for each
laboratory with how its runs have ended. It needs a C compiler, `cc`, for the few lines that count requests and refuse
one. With LAB set, that program runs. It ends with 0; with 1 if something was wrong; and with 2 if its
arguments are wrong: FIRST is a number from 1 on.
"""
import concurrent.futures
import dataclasses
import struct
import subprocess
import tempfile
from typing import List

from labdev import mangle, trials
from labdev.cases import Files
from labdev.trials import Ended
from labtools.common.program import TOP, end_unless, end_wrong, number_of, path_of_program

STEP = 100
CASES = (
    ("first_letter", ["run", "reached.resc"]),
    ("three_senders_arrive_in_order_of_board", ["run", "s.resc", "--workers", "2"]),
    ("a_usual_script_runs_to_its_time", ["run", "s.resc", "--until", "0.000003"]),
    ("sixteen_boards_of_64_mib_store_in_three_pages", ["run", "s.resc"]),
    ("a_laboratory_is_kept_and_taken_back", ["run", "boot.resc"]),
    ("a_laboratory_is_kept_and_taken_back", ["run", "on.resc"]),
)
SOURCE = r"""
#include <errno.h>
#include <fcntl.h>
#include <stdatomic.h>
#include <stdlib.h>
#include <sys/mman.h>
#include <unistd.h>

void *__libc_malloc(size_t);
void *__libc_calloc(size_t, size_t);
void *__libc_realloc(void *, size_t);
void *__libc_memalign(size_t, size_t);

void __libc_free(void *);

/* How many requests there were, and how many blocks are not freed. Both are kept in a file: the program ends without a
   last call. */
static struct counts { atomic_ulong requests, held; } own, *counts = &own;
static unsigned long refused;

__attribute__((constructor)) static void begin(void) {
  const char *number = getenv("STARVE"), *name = getenv("STARVE_COUNTS");
  int file = name ? open(name, O_RDWR) : -1;
  void *kept = file < 0 ? MAP_FAILED : mmap(0, sizeof own, PROT_READ | PROT_WRITE, MAP_SHARED, file, 0);
  if (kept != MAP_FAILED) counts = kept;
  counts->requests = counts->held = 0;
  if (number) refused = strtoul(number, 0, 10);
}

static int is_refused(void) {
  if (++counts->requests != refused) return 0;
  errno = ENOMEM;
  return 1;
}

static void *held(void *block) {
  if (block) ++counts->held;
  return block;
}

void free(void *block) {
  if (block) --counts->held;
  __libc_free(block);
}

void *malloc(size_t size) { return is_refused() ? 0 : held(__libc_malloc(size)); }
void *calloc(size_t count, size_t size) { return is_refused() ? 0 : held(__libc_calloc(count, size)); }
void *aligned_alloc(size_t align, size_t size) { return is_refused() ? 0 : held(__libc_memalign(align, size)); }
void *realloc(void *old, size_t size) {
  if (is_refused()) return 0;
  return old ? __libc_realloc(old, size) : held(__libc_malloc(size));
}
int posix_memalign(void **to, size_t align, size_t size) {
  void *got = is_refused() ? 0 : held(__libc_memalign(align, size));
  if (!got) return ENOMEM;
  *to = got;
  return 0;
}
"""


def built(room: str) -> str:
    """Returns the library that counts requests, made in this folder."""
    with open(f"{room}/starve.c", "w", encoding="utf-8") as file:
        file.write(SOURCE)
    made = subprocess.run(["cc", "-O2", "-shared", "-fPIC", "-o", f"{room}/starve.so", f"{room}/starve.c"])
    if made.returncode != 0:
        end_wrong("cc has not made the library that counts requests", 1)
    return f"{room}/starve.so"


@dataclasses.dataclass(frozen=True)
class Answer:
    """How a run has ended, how many requests for memory there were, how many blocks were not freed, and which files
    stand in its folder then."""

    ended: Ended
    requests: int
    held: int
    files: Files

    def is_as(self, whole: "Answer") -> bool:
        return (self.ended, self.files) == (whole.ended, whole.files)

    def is_well(self, whole: "Answer", before: Files) -> bool:
        is_front = self.ended.status == 1 and whole.ended.printed.startswith(self.ended.printed)
        return (self.is_as(whole) or is_front) and self.files in (before, whole.files) and self.held <= whole.held


@dataclasses.dataclass(frozen=True)
class Starved:
    """Runs over files, with a library that counts their requests for memory, and refuses one."""

    program: str
    library: str
    files: Files
    words: List[str]

    def answer(self, number: int = 0) -> Answer:
        """Makes a run to which the request of this number is refused, or none."""
        with tempfile.TemporaryDirectory(prefix="lab-starve-") as room, tempfile.NamedTemporaryFile() as counts:
            trials.put(room, self.files)
            counts.write(bytes(16))
            counts.flush()
            settings = {"LD_PRELOAD": self.library, "STARVE": str(number), "STARVE_COUNTS": counts.name}
            ended = trials.run([self.program, *self.words], room, env=settings)
            counts.seek(0)
            requests, held = struct.unpack("<QQ", counts.read(16))
            return Answer(Ended(ended.status, ended.printed), requests, held, trials.files_in(room))

    def try_all(self, name: str, first: int) -> bool:
        """Makes the runs, tells how they end, and returns whether all were well."""
        whole = self.answer()
        last = whole.requests
        numbers = [*range(1, min(first, last) + 1), *range(first + STEP, last + 1, STEP)]
        with concurrent.futures.ThreadPoolExecutor(trials.lanes()) as lanes:
            answers = list(lanes.map(self.answer, numbers))
        wrong = [(number, it) for number, it in zip(numbers, answers) if not it.is_well(whole, self.files)]
        said = f"{name}: {' '.join(self.words)}"
        for number, it in wrong:
            changed = sorted(file for file in it.files if it.files[file] != self.files.get(file))
            end = f"ended with {it.ended.status}, {it.ended.printed[-80:]!r}, {it.held} blocks not freed"
            print(f"{said}: request {number} refused: {end} and {changed} made")
        same = sum(it.is_as(whole) for it in answers)
        ends = f"{same} ended as without, {len(answers) - same} otherwise; blocks not freed without: {whole.held}"
        print(f"{said}: {last} requests; of {len(answers)} runs {ends}")
        return not wrong


def main(words: List[str]) -> int:
    end_unless(len(words) < 2, "[FIRST]")
    first = number_of(words[0], "[FIRST]") if words else 1000
    program = path_of_program()
    trials.unwind_at_ends()
    is_well = True
    with tempfile.TemporaryDirectory(prefix="lab-starve-") as room:
        library = built(room)
        for name, asked in CASES:
            case = mangle.of_case(f"{TOP}/cases/{name}.case", program)
            laboratory = next(it for it in case if asked[1] in it.files)
            is_well = Starved(program, library, laboratory.files, asked).try_all(name, first) and is_well
    return 0 if is_well else 1
