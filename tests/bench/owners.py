"""Tells which functions spend the instructions that callgrind counts, also where they were inlined.

The program has the names that naming_clang gives. What `core` has in place of Rust's operators, loops and moves, as
slices, iterators and options, and what the C library does count for the function that uses it.
"""
import re
import subprocess
from collections import Counter, defaultdict

OPTIONS = "--dump-instr=yes", "--compress-strings=no", "--compress-pos=no"
OF_USER = re.compile(r"core::(?!fmt|hash|time)")
# A function that a function is called by may itself be one that counts for its callers, and so on.
STEPS = 12


def counts(function):
    """Whether a function counts for itself, and not for its callers."""
    return re.match(r"\w+::", function) and not OF_USER.match(function)


def crate_of(function):
    """The crate of a function that `Owners` tells."""
    return function.partition("::")[0]


class Owners:
    """The functions of a program."""

    def __init__(self, program):
        self.program, self.functions = str(program), {}

    def look_up(self, places):
        """Finds the function of each place in the code: the innermost that counts for itself."""
        places = sorted({it for it in places if it not in self.functions})
        said = subprocess.run(["addr2line", "-a", "-i", "-f", "-e", self.program], input="\n".join(places), text=True,
                              stdout=subprocess.PIPE, check=True).stdout
        for place, text in zip(places, re.split(r"(?m)^0x[0-9a-f]+\n", said)[1:]):
            self.functions[place] = next(filter(counts, text.splitlines()[::2]), None)

    def read(self, text, weight, own, calls):
        """Adds the costs in a file of callgrind, by place and function, and those of its calls."""
        library, function, called, is_call = "", "", [None, None], False
        for line in text.splitlines():
            key, _, value = line.partition("=")
            if line.startswith("0x"):
                place, _, cost = line.split()
                where = place if library == self.program else None, library, function
                if is_call:
                    calls[where, (called[0] or library, called[1])] += weight * int(cost)
                    called, is_call = [None, None], False
                else:
                    own[where] += weight * int(cost)
            elif key == "ob":
                library = value
            elif key == "fn":
                function = value
            elif key in ("cob", "cfn"):
                called[key == "cfn"] = value
            elif key == "calls":
                is_call = True

    def costs(self, weighted):
        """The instructions in files of callgrind, each with what it counts for, by function."""
        own, calls = Counter(), Counter()
        for text, weight in weighted:
            self.read(text, weight, own, calls)
        self.look_up(place for place, *_ in [*own, *(it[0] for it in calls)] if place)
        known, without, callers = Counter(), Counter(), defaultdict(Counter)
        for (place, *function), cost in own.items():
            if user := self.functions.get(place):
                known[user] += cost
            else:
                without[tuple(function)] += cost
        for ((place, *function), called), cost in calls.items():
            callers[called][self.functions.get(place) or tuple(function)] += max(cost, 0)
        shares = {}
        for _ in range(STEPS):
            shares = {it: self.share(callers[it], it, shares) for it in [*without, *callers]}
        for function, cost in without.items():
            for user, share in shares[function].items():
                known[user] += cost * share
        return known

    @staticmethod
    def share(callers, function, shares):
        """Which functions a function counts for, as what part."""
        share, total = Counter(), sum(cost for it, cost in callers.items() if it != function)
        for caller, cost in callers.items():
            if caller != function and total:
                for user, part in ({caller: 1} if isinstance(caller, str) else shares.get(caller, {})).items():
                    share[user] += part * cost / total
        return share or Counter({"other": 1})
