"""What a call of the library for C costs beside the same call in Rattle, in instructions that valgrind's callgrind counts.
Twice as many calls take so much more than once as many: that is what the calls cost, and what they begin with isn't in
it. A change has in it that its calls of the device are carried out."""
import os

from cost_cases import Run
from costs import Failed, numbers_of

MOST = 1.2
COUNTS = {"create": 100, "write": 100, "truncate": 100, "rename": 100, "remove": 100, "refused": 100, "clean": 5,
          "look": 100, "read": 100, "entry": 20, "usage": 20}


def compare(runner, in_c):
    """Counts a failure for each call that costs more than MOST times the same call in Rattle."""
    in_rattle = runner.options.built / "crates/jffs_bench/out/jffs_bench"
    if not os.access(in_rattle, os.X_OK):
        print("  left out: what calls cost, since jffs_bench isn't built")
        return
    runner.each(COUNTS, lambda call: runner.tally.add(f"what {call} costs", why_dear(call, in_c, in_rattle)))


def why_dear(call, in_c, in_rattle):
    """Why a call costs too much; None where it doesn't."""
    try:
        costs = [cost(program, call) for program in (in_c, in_rattle)]
    except Failed as why:
        return str(why)
    ratio = costs[0] / costs[1]
    print("  {}: {} instructions in C, {} in Rattle, {:.2f}".format(call, *(all // COUNTS[call] for all in costs), ratio))
    return None if ratio <= MOST else f"{ratio:.2f} times the call in Rattle"


def cost(program, call):
    """The instructions of so many calls."""
    once, twice = (numbers_of("callgrind", program, Run(program.name, (call, str(times * COUNTS[call]))))[0]
                   for times in (1, 2))
    return twice - once
