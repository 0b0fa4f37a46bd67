"""A cache over time: the store beside a model of RFC 9111."""
from common.comparison import Comparison
from common.part import Context, Part
from histories import against_model, generate

INTRODUCTION = """
`cache_store` and the model play the same {total:,} random histories of a cache, each of at least 22 calls. Clients
ask with fields that Vary names, conditions, ranges, Authorization and malformed directives. The origin answers,
validates by 304 or HEAD, with strong, weak and no validators, and invalidates. Time goes on, and sometimes back. Limits
are small, so responses are evicted. Each answer is compared, and at the end all that is stored. A history ends with its
first answer that is otherwise.
"""
PASSES = """
{total:,} more histories are of passes, by the package for Python, whose replies are judged as messages: status, fields and content. Up to eight requests are open at a time, and their steps interleave:
responses come late, in another order than they were asked for, cut short, or never; a PUT comes between.
"""
OPTIONS = """
A cache has no [options](../../crates/cache_policy/README.md#options), or `immutable` (RFC 8246), or targeted fields (RFC 9213), or it may
guess lifetimes by `lookup_guessing` (RFC 9111, section 4.2.2), or it has all of these. Its origin makes use of them.
"""


def run(context: Context) -> Part:
    part = Part("A cache over time")
    every = Comparison()
    totals, table = {}, []
    for mode in against_model.PLAYERS:
        inputs = context.inputs if mode == "calls" else context.passes
        count = max(1, inputs // len(generate.OPTIONS))
        totals[mode] = count * len(generate.OPTIONS)
        for option in generate.OPTIONS:
            found = against_model.compare(mode, context.seed, option, count, context.jobs)
            every.merge(found)
            table.append([mode, option, count, found.agree.total() + found.differences, found.differences])
    part.section += INTRODUCTION.strip().format(total=totals["calls"]).split("\n") + [""]
    part.section += PASSES.strip().format(total=sum(totals.values()) - totals["calls"]).split("\n") + [""]
    part.section += OPTIONS.strip().split("\n") + [""]
    part.table(["Of", "Options", "histories", "answers", "otherwise"], table)
    part.section += ["The same answers by call:", ""]
    part.table(["Call", "as the model", "otherwise"], [it[:3] for it in every.rows()])
    part.want(f"differences from the model in {sum(totals.values()):,} histories", every.differences, 0)
    part.faults += every.faults()
    return part
