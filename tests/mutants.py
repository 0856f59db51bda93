"""Would the cases of compare.py, and those of page_outside.py, notice a wrong
reading?

    mutants.py [--seed N] [--count N]

Each mutant is a model, that of checker.py, of rules.py or of pages.py, that reads
one thing otherwise, in one place of the source or in a few.  For each the cases are
answered again and those that change are counted; a mutant that changes none is a
gap in the cases.  Without options the cases are the gate's.  A mutant of truth on
the uncut structure changes no answer: it has to differ from what finish fills on
jobs that are drawn besides.  A mutant of the program `page` has to print otherwise
for one of the gate's cases of page_outside.py, whatever the options.  The mutants of
page's questions are counted with those of the calls; the cases of pages have to
notice them, too.
"""

from __future__ import annotations

import argparse
import itertools
import pathlib
import random
import sys
import types
from typing import TYPE_CHECKING, Iterable, Iterator

import checker
import generate
import pages
import rules

if TYPE_CHECKING:
    import outside
    import page_cases
    import trials

SET_MUTANTS: list[tuple[str, ...]] = [
    ("the largest set restricted by subtraction afterwards",
     "if s not in smallest and start[s] == FALSE)", "if start[s] == FALSE)",
     "return smallest, largest\n", "return smallest, largest - smallest\n"),
    ("a cell that could join both joins the largest",
     "if s not in smallest and start[s] == FALSE)", "if start[s] == FALSE)",
     "return smallest, largest\n", "return smallest - largest, largest\n"),
    ("no restriction of the smallest set while it grows", "            and own[s] != other\n", ""),
    ("both sets without any restriction",
     "            and own[s] != other\n", "",
     "if s not in smallest and start[s] == FALSE)", "if start[s] == FALSE)",
     "return smallest, largest\n", "return smallest, largest - smallest\n"),
    ("cells already filled do not start the smallest set",
     "smallest = {s for s in job.fragment[node] if own[s] == value}",
     "smallest = {s for s in job.border[node] if own[s] == value}"),
    ("cells already filled must still be backed in the largest set",
     "            if s not in already\n", "            if s in owned\n"),
    ("border states not in the smallest set by their own value",
     "smallest = {s for s in job.fragment[node] if own[s] == value}",
     "smallest = {s for s in owned if own[s] == value}"),
    ("border states not in the largest set by their own value",
     "already = {s for s in job.fragment[node] if own[s] == other}",
     "already = {s for s in owned if own[s] == other}"),
    ("operands read at border states",
     "smallest = {s for s in job.fragment[node] if own[s] == value}",
     "smallest = {s for s in job.fragment[node] if own[s] == value or (start[s] == TRUE and own[s] != other)}"),
    ("the smallest set as if border states had no successors",
     "            for s in owned\n            if s not in smallest\n", "            for s in job.fragment[node]\n            if s not in smallest\n",
     "quantifier(t in smallest for t in job.successors[s])", "quantifier(t in smallest for t in job.successors[s] if s in owned)"),
    ("the largest set as if border states had no successors",
     "already.union(s for s in owned if", "already.union(s for s in job.fragment[node] if",
     "dual(t in largest for t in job.successors[s])", "dual(t in largest for t in job.successors[s] if s in owned)"),
    ("the largest set grown from nothing",
     "    return smallest, largest\n",
     "    grown = set(already)\n"
     "    for _ in owned:\n"
     "        grown |= {s for s in largest if grow[s] == FALSE or dual(t in grown for t in job.successors[s])}\n"
     "    return smallest, grown\n"),
    ("the largest set where an operand is empty", "and start[s] == FALSE)", "and start[s] != TRUE)"),
    ("both sets by one quantifier", "dual = any if quantifier is all else all", "dual = quantifier"),
]  # fmt: skip
"""Wrong readings of the sets of a step, each of untils alone and of EG and AG
alone.

The largest set taken first, without the cells of the other value, and winning
over the smallest is no mutant: once filled cells are kept out of the other set
the two cannot meet, for the first cell to join the smallest that is in the
largest too would have a successor that joined before it and is in both."""

MUTANTS: list[tuple[str, ...]] = [
    ("A and E untils exchanged", "all if kind == AU", "all if kind == EU"),
    ("EG and AG exchanged", "all if kind == EG", "all if kind == AG"),
    ("untils: truth grows where a is empty", "grow[s] == TRUE", "grow[s] != FALSE"),
    ("EG, AG: falsity grows only where a is true", "[TRUE] * len(a)", "a"),
    ("EG, AG: the opposite of an empty a is true",
     "a_false = [rule_of_not(cell) for cell in a]", "a_false = [TRUE if cell == EMPTY else rule_of_not(cell) for cell in a]"),
    ("AX and EX exchanged", "(all, any) if kind == AX", "(all, any) if kind == EX"),
    ("not of empty is true", "value[s] = rule_of_not(cells[s])", "value[s] = TRUE if cells[s] == EMPTY else rule_of_not(cells[s])"),
    ("false and empty stays empty", "if a == FALSE or b == FALSE:", "if a == FALSE and b == FALSE:"),
    ("atoms only at owned states",
     "        for s in job.fragment[node]:\n            value[s] = job.label[s] >> a & 1",
     "        for s in job.owned[node]:\n            value[s] = job.label[s] >> a & 1"),
    ("not only at owned states",
     "        for s in job.fragment[node]:\n            value[s] = rule_of_not(cells[s])",
     "        for s in job.owned[node]:\n            value[s] = rule_of_not(cells[s])"),
    ("and only at owned states",
     "        for s in job.fragment[node]:\n            value[s] = rule_of_and(",
     "        for s in job.owned[node]:\n            value[s] = rule_of_and("),
    ("AX, EX at border states by no successors",
     "        for s in job.owned[node]:\n            value[s] = rule_of_next(kind, [cells[t] for t in job.successors[s]])",
     "        for s in job.fragment[node]:\n            value[s] = rule_of_next(kind, [cells[t] for t in job.successors[s]] if s in job.owned[node] else [])"),
    ("a step recomputes filled cells",
     "    if table[cell] != EMPTY or value == EMPTY:\n        return 0\n    table[cell] = value\n    return 1",
     "    if value == EMPTY or table[cell] == value:\n        return 0\n    table[cell] = value\n    return 1"),
    ("subformulas downward",
     "for k in range(job.sizes.formulas))\n\n\n# ---", "for k in reversed(range(job.sizes.formulas)))\n\n\n# ---"),
    *((f"settled: copies of {name} not asked", "return not copies(job, table, job.temporal()) and all(",
       f"return not copies(job, table, [k for k in job.temporal() if job.rules[k].kind not in {kinds}]) and all(")
      for name, kinds in (("AX, EX", "(AX, EX)"), ("untils", "UNTILS"), ("EG", "(EG,)"), ("AG", "(AG,)"))),
    ("settled: steps not asked", "step_node(job, bytearray(table), node) == 0 for node", "True for node"),
    ("close: k searched in fragments of node 0 only",
     "            if table[owners_cell(job, s, k)] == EMPTY:", "            if table[job.cell(0, s, k)] == EMPTY:"),
    ("close: the greatest k", "    for k in range(job.sizes.formulas):\n        for s in range(job.sizes.states):",
     "    for k in reversed(range(job.sizes.formulas)):\n        for s in range(job.sizes.states):"),
    ("close fills owners' cells only",
     "        for node in range(job.sizes.nodes)\n        for s in job.fragment[node]\n    )",
     "        for node in range(job.sizes.nodes)\n        for s in job.owned[node]\n    )"),
    ("close fills every empty subformula",
     "        fill(table, job.cell(node, s, k), value)\n        for node in range(job.sizes.nodes)\n        for s in job.fragment[node]\n    )",
     "        fill(table, job.cell(node, s, j), value)\n        for node in range(job.sizes.nodes)\n        for s in job.fragment[node]\n        for j in range(k, job.sizes.formulas)\n    )"),
    ("close fills 1 for untils", "value = TRUE if job.rules[k].kind in ALL_ALONG else FALSE", "value = TRUE"),
    ("close fills 0 for EG and AG", "value = TRUE if job.rules[k].kind in ALL_ALONG else FALSE", "value = FALSE"),
    ("close fills 0 for EG", "kind in ALL_ALONG else FALSE", "kind == AG else FALSE"),
    ("close fills 0 for AG", "kind in ALL_ALONG else FALSE", "kind == EG else FALSE"),
    ("a round closes even when it has filled", "        if filled == 0:\n            filled += self.closing()", "        filled += self.closing()"),
    ("a round copies before it steps",
     "        filled = self.steps()\n        filled += self.copy()", "        filled = self.copy()\n        filled += self.steps()"),
    ("a round without copies", "        filled += self.copy()\n", ""),
    ("the last round not counted", "        done += 1\n", "        done += filled > 0\n"),
    ("verdict of the last state", "owners_cell(job, 0, job.sizes.formulas - 1)", "owners_cell(job, job.sizes.states - 1, job.sizes.formulas - 1)"),
    ("verdict of node 0's cell", "table[owners_cell(job, 0, job.sizes.formulas - 1)]", "table[job.cell(0, 0, job.sizes.formulas - 1)]"),
    ("verdict of subformula 0", "owners_cell(job, 0, job.sizes.formulas - 1)", "owners_cell(job, 0, 0)"),
    ("255 not known to look", "ask(node < job.sizes.nodes or node == NO_NODE, 11)", "ask(node < job.sizes.nodes, 11)"),
    ("255 is node 0", "read = job.owner[state] if node == NO_NODE", "read = 0 if node == NO_NODE"),
    ("255 is the owner of state 0", "read = job.owner[state] if node == NO_NODE", "read = job.owner[0] if node == NO_NODE"),
    ("255 is the lowest node that has the state", "read = job.owner[state] if node == NO_NODE",
     "read = min(n for n in range(job.sizes.nodes) if state in job.fragment[n]) if node == NO_NODE"),
    ("look reads the owner, whichever node is named", "read = job.owner[state] if node == NO_NODE else node",
     "ask(node == NO_NODE or state in job.fragment[node], 18)\n    read = job.owner[state]"),
    ("from 255 on no node is named", "ask(node < job.sizes.nodes or node == NO_NODE, 11)\n    ask_names(job, state, formula)\n    read = job.owner[state] if node == NO_NODE",
     "ask(node < job.sizes.nodes or node >= NO_NODE, 11)\n    ask_names(job, state, formula)\n    read = job.owner[state] if node >= NO_NODE"),
    ("the owner sought before 12: 11", "ask(node < job.sizes.nodes or node == NO_NODE, 11)",
     "ask(node < job.sizes.nodes or (node == NO_NODE and state < job.sizes.states), 11)"),
    ("the owner sought before 12: 18", "ask(node < job.sizes.nodes or node == NO_NODE, 11)\n",
     "ask(node < job.sizes.nodes or node == NO_NODE, 11)\n    ask(node != NO_NODE or state < job.sizes.states, 18)\n"),
    ("look with 255 asks 18 of node 0", "    ask(state in job.fragment[read], 18)", "    ask(state in job.fragment[0 if node == NO_NODE else read], 18)"),
    ("255 known to step", "    ask(node < job.sizes.nodes, 11)\n    after = bytearray(table)\n    filled = step_node(job, after, node)",
     "    ask(node < job.sizes.nodes or node == 255, 11)\n    after = bytearray(table)\n    filled = step_node(job, after, node % 255)"),
    ("255 known to accept", "    ask(node < job.sizes.nodes, 11)\n    ask_names(job, state, formula)\n    ask(job.rules",
     "    ask(node < job.sizes.nodes or node == 255, 11)\n    ask_names(job, state, formula)\n    node = job.owner[state] if node == 255 else node\n    ask(job.rules"),
    ("look asks 18 of states that are not border", "    ask(state in job.fragment[read], 18)", "    ask(state in job.border[read], 18)"),
    ("fresh asks 10", "    ask(len(table) == job.size(), 9)\n    return [0, 0]", "    ask_table(job, table)\n    return [0, 0]"),
    ("fresh makes zeros", "return [0, 0], bytes([EMPTY])", "return [0, 0], bytes([0])"),
    ("10 not asked outside fragments", "ask(all(byte == EMPTY for byte in row), 10)", "pass"),
    ("10: bytes over 2 let by", "ask(all(byte <= 2 for byte in table), 10)", "pass"),
    ("9 lets longer tables by", "ask(len(table) == job.size(), 9)\n    ask(all", "ask(len(table) >= job.size(), 9)\n    ask(all"),
    ("offer asks 14 of node 0", "value = table[owners_cell(job, state, formula)]", "value = table[job.cell(0, state, formula)]"),
    ("accept: 16 before 15",
     "    ask(value in (FALSE, TRUE), 15)\n    ask(state in job.border[node], 16)\n",
     "    ask(state in job.border[node], 16)\n    ask(value in (FALSE, TRUE), 15)\n"),
    ("accept: 15 before 13",
     "    ask(job.rules[formula].kind in TEMPORAL, 13)\n    ask(value in (FALSE, TRUE), 15)\n",
     "    ask(value in (FALSE, TRUE), 15)\n    ask(job.rules[formula].kind in TEMPORAL, 13)\n"),
    ("accept: 12 before 11",
     "    ask(node < job.sizes.nodes, 11)\n    ask_names(job, state, formula)\n    ask(job.rules",
     "    ask_names(job, state, formula)\n    ask(node < job.sizes.nodes, 11)\n    ask(job.rules"),
    ("accept: 17 never", "    ask(table[cell] in (EMPTY, value), 17)\n", ""),
    ("accept: 17 also when equal", "in (EMPTY, value), 17)", "in (EMPTY,), 17)"),
    ("accept fills any state of the fragment", "ask(state in job.border[node], 16)", "ask(state in job.fragment[node], 16)"),
    ("close: 20 before 19", "    ask(settled(job, table), 19)\n    k = lowest_open(job, table)\n    ask(k is not None, 20)\n",
     "    k = lowest_open(job, table)\n    ask(k is not None, 20)\n    ask(settled(job, table), 19)\n"),
    ("kinds 6 to 9 only are temporal", "TEMPORAL = (AX, EX, *SETS)", "TEMPORAL = SETS"),
    ("EG and AG not temporal", "TEMPORAL = (AX, EX, *SETS)", "TEMPORAL = (AX, EX, *UNTILS)"),
    ("EG not temporal", "TEMPORAL = (AX, EX, *SETS)", "TEMPORAL = (AX, EX, *UNTILS, AG)"),
    ("AG not temporal", "TEMPORAL = (AX, EX, *SETS)", "TEMPORAL = (AX, EX, *UNTILS, EG)"),
    ("offer: EG and AG not temporal", "TEMPORAL, 13)\n    value", "TEMPORAL[:4], 13)\n    value"),
    ("accept: EG and AG not temporal", "TEMPORAL, 13)\n    ask(value", "TEMPORAL[:4], 13)\n    ask(value"),
    ("EG and AG not copied", "if rule.kind in TEMPORAL]", "if rule.kind in TEMPORAL[:4]]"),
    ("page: the node steps first", "    return [0, 0], bytes(table)\n",
     "    after = bytearray(table)\n    step_node(job, after, node)\n    return [0, 0], bytes(after)\n"),
    ("page: the table is finished first", "    return [0, 0], bytes(table)\n", "    return [0, 0], finish(text, table)[1]\n"),
]  # fmt: skip
"""Wrong readings of what a call does with an accepted text."""

TEXT_MUTANTS: list[tuple[str, ...]] = [
    ("fields with leading zeros", 'rb" *(0|[1-9][0-9]*)"', 'rb" *[0-9]+"'),
    ("a field of spaces", 'rb" *(0|[1-9][0-9]*)"', 'rb" *(|0|[1-9][0-9]*)"'),
    ("byte 10 not asked", "or part[-1] != 10", ""),
    ("3 before 2", "        2,\n        1,\n    )\n    ask(len(text) ==", "        3,\n        1,\n    )\n    ask(len(text) =="),
    ("longer texts let by", "ask(len(text) == 21", "ask(len(text) >= 21"),
    ("label up to 65,536", "label <= 65_535", "label <= 65_536"),
    ("owner up to N", "owner < size.nodes", "owner <= size.nodes"),
    ("equal pairs let by", "edges[e - 1] < edges[e]", "edges[e - 1] <= edges[e]"),
    ("to not ascending within from", "edges[e - 1] < edges[e]", "edges[e - 1][0] <= edges[e][0]"),
    ("7 with an edge line", "ask(len(successors[s]) > 0, 7, 2 + s)", "ask(len(successors[s]) > 0, 7, 2 + first_edge + s)"),
    ("8 asks no b = 0", "else b == 0)", "else True)"),
    ("8: atom 16", "a <= 15 if", "a <= 16 if"),
    ("8: a = k", "else a < k)", "else a <= k)"),
    ("8: kind 8 with a = k", "else a < k)", "else a < k + (kind == EG))"),
    ("8: kind 9 with a = k", "else a < k)", "else a < k + (kind == AG))"),
    ("8: b = k", "(b < k if", "(b <= k if"),
    ("8: kind 0", "kind in KINDS", "kind in range(0, 10)"),
    ("8: kind 10", "kind in KINDS", "kind in range(1, 11)"),
    ("8: kinds 8 and 9 refused", "kind in KINDS", "kind in range(1, 8)"),
    ("8: kind 9 refused", "kind in KINDS", "kind in range(1, 9)"),
    ("8: kind 8 with a b", "else b == 0)", "else b == 0 or kind == EG)"),
    ("8: kind 9 with a b", "else b == 0)", "else b == 0 or kind == AG)"),
    ("line asks all of 1 to 8", "start, count = place(sizes(text), number)", "start, count = place(parse(text).sizes, number)"),
    ("line with its last byte", "return text[start : start + 5 * count]\n", "return text[start : start + 5 * count + 1]\n"),
    ("line stops at the first byte 10", "return text[start : start + 5 * count]\n", "return text[start : start + 5 * count].split(b'\\n')[0]\n"),
    ("a refusal keeps the state", "return [no.number, no.line] + [0] * (width - 2), bytes(table)",
     "return [no.number, no.line] + list(numbers[:width - 2]) + [0] * (width - 2 - len(numbers[:width - 2])), bytes(table)"),
]  # fmt: skip
"""Wrong readings of a text, of the call line and of a refusal."""


FAULT_MUTANTS: list[tuple[str, ...]] = [
    # Which question is answered where two fail.
    ("5 wins over a later 4", "        ask(line_fields is not None, 4, number)\n",
     "        for s, (owner, label) in enumerate(lines[: size.states] if line_fields is None else []):\n"
     "            ask(owner < size.nodes and label <= 65_535, 5, 2 + s)\n"
     "        ask(line_fields is not None, 4, number)\n"),
    ("6 wins over a later 4", "        ask(line_fields is not None, 4, number)\n",
     "        so_far = lines[size.states : size.states + size.edges] if line_fields is None else []\n"
     "        for e, edge in enumerate(so_far):\n"
     "            ask(max(edge) < size.states and (e == 0 or so_far[e - 1] < edge), 6, 2 + size.states + e)\n"
     "        ask(line_fields is not None, 4, number)\n"),
    ("7 wins over a later 4", "        ask(line_fields is not None, 4, number)\n",
     "        if line_fields is None and number >= 2 + size.states + size.edges:\n"
     "            starts = [edge[0] for edge in lines[size.states : size.states + size.edges]]\n"
     "            for s in range(size.states):\n"
     "                ask(s in starts, 7, 2 + s)\n"
     "        ask(line_fields is not None, 4, number)\n"),
    ("8 wins over a later 4", "        ask(line_fields is not None, 4, number)\n",
     "        for k, rule in enumerate(lines[size.states + size.edges :] if line_fields is None else []):\n"
     "            ask(rule[0] in KINDS, 8, 2 + size.states + size.edges + k)\n"
     "        ask(line_fields is not None, 4, number)\n"),
    ("6 before 5", "    for s, (owner, label) in enumerate(states):\n",
     "    for e, edge in enumerate(edges):\n"
     "        ask(max(edge) < size.states and (e == 0 or edges[e - 1] < edge), 6, 2 + first_edge + e)\n"
     "    for s, (owner, label) in enumerate(states):\n"),
    ("7 before 6", "    for e, (start, end) in enumerate(edges):\n",
     "    for s in range(size.states):\n"
     "        ask(s in [start for start, _ in edges], 7, 2 + s)\n"
     "    for e, (start, end) in enumerate(edges):\n"),
    ("7 as soon as a line leaves a state out", "            2 + first_edge + e,\n        )\n",
     "            2 + first_edge + e,\n        )\n"
     "        following = edges[e - 1][0] + 1 if e else 0\n"
     "        ask(start <= following, 7, 2 + following)\n"),
    ("8 before 5", "    for s, (owner, label) in enumerate(states):\n",
     "    for k, rule in enumerate(rules):\n        ask(rule.kind in KINDS, 8, 2 + first_rule + k)\n"
     "    for s, (owner, label) in enumerate(states):\n"),
    ("8 before 7", "    successors: list[list[int]] = [[] for _ in states]\n",
     "    for k, rule in enumerate(rules):\n        ask(rule.kind in KINDS, 8, 2 + first_rule + k)\n"
     "    successors: list[list[int]] = [[] for _ in states]\n"),
    # Which line is told where two fail.
    ("4 with the last such line", "for number in range(2, 2 + size.states + size.edges + size.formulas):",
     "for number in reversed(range(2, 2 + size.states + size.edges + size.formulas)):",
     "lines.append(line_fields)", "lines.insert(0, line_fields)"),
    ("5 with the last such line", "in enumerate(states):", "in reversed([*enumerate(states)]):"),
    ("6 with the last such line", "in enumerate(edges):", "in reversed([*enumerate(edges)]):"),
    ("7 with the last such state", "for s in range(size.states):\n        ask(len", "for s in reversed(range(size.states)):\n        ask(len"),
    ("8 with the last such line", "in enumerate(rules):\n        ask(\n", "in reversed([*enumerate(rules)]):\n        ask(\n"),
    # The edge lines.
    ("6: all ranges before the order", "    for e, (start, end) in enumerate(edges):\n",
     "    for e, edge in enumerate(edges):\n        ask(max(edge) < size.states, 6, 2 + first_edge + e)\n"
     "    for e, (start, end) in enumerate(edges):\n"),
    ("6: the order before all ranges", "    for e, (start, end) in enumerate(edges):\n",
     "    for e in range(1, size.edges):\n        ask(edges[e - 1] < edges[e], 6, 2 + first_edge + e)\n"
     "    for e, (start, end) in enumerate(edges):\n"),
    ("6: from not asked", "            start < size.states\n            and end < size.states\n", "            end < size.states\n"),
    ("6: to not asked", "            and end < size.states\n", ""),
    ("6: from up to S", "start < size.states", "start <= size.states"),
    ("6: to up to S", "end < size.states", "end <= size.states"),
    ("6: to up to 255", "end < size.states", "end < 256"),
    ("6: to cut to a byte", "end < size.states", "end % 2**8 < size.states"),
    ("6: to cut to two bytes", "end < size.states", "end % 2**16 < size.states"),
    ("6: ends of the first line not asked", "            start < size.states\n            and end < size.states\n            and (e == 0 or edges[e - 1] < edges[e]),\n",
     "            e == 0 or start < size.states\n            and end < size.states\n            and edges[e - 1] < edges[e],\n"),
    ("6: the last line not asked", "in enumerate(edges):", "in enumerate(edges[:-1]):"),
    ("6: the first pair greater than 0, 0", "(e == 0 or edges[e - 1] < edges[e])", "(edges[e - 1] if e else (0, 0)) < edges[e]"),
    ("6: pairs compared with the first", "edges[e - 1] < edges[e]", "edges[0] < edges[e]"),
    ("6: pairs compared with the one two lines before", "edges[e - 1] < edges[e]", "edges[max(e - 2, 0)] < edges[e]"),
    ("6: pairs compared by to, then by from", "edges[e - 1] < edges[e]", "edges[e - 1][::-1] < edges[e][::-1]"),
    ("6: to ascending over all lines", "edges[e - 1] < edges[e]", "edges[e - 1] < edges[e] and edges[e - 1][1] <= edges[e][1]"),
    ("7: an edge into the state is enough", "ask(len(successors[s]) > 0, 7", "ask(any(s in edge for edge in edges), 7"),
    ("7: a loop is not enough", "ask(len(successors[s]) > 0, 7", "ask(any(t != s for t in successors[s]), 7"),
    ("7: the last line does not count", "ask(len(successors[s]) > 0, 7", "ask(any(start == s for start, _ in edges[:-1]), 7"),
    ("7: the first line does not count", "ask(len(successors[s]) > 0, 7", "ask(any(start == s for start, _ in edges[1:]), 7"),
    ("7: states before the first edge's not asked", "for s in range(size.states):\n        ask(len", "for s in range(edges[0][0], size.states):\n        ask(len"),
    ("7: states behind the last edge's not asked", "for s in range(size.states):\n        ask(len", "for s in range(edges[-1][0] + 1):\n        ask(len"),
]  # fmt: skip
"""Wrong readings of a text with several faults, and of questions 6 and 7, as a
reader that goes over the lines once may have them.

That the pair before is the last right one, or that what was kept for 7 is lost
where a line fails 6, are no mutants: up to the first line that fails 6 all lines
are right, and from there on nothing but that line is told."""


PAGE_QUESTION_MUTANTS: list[tuple[str, ...]] = [
    ("page: 24 before 11",
     "    ask(node < job.sizes.nodes, 11)\n    ask(room >= PAGE_LINE * (job.sizes.states + 1), 24)\n",
     "    ask(room >= PAGE_LINE * (job.sizes.states + 1), 24)\n    ask(node < job.sizes.nodes, 11)\n"),
    ("page: 24 before 10", "    ask_table(job, table)\n    ask(node < job.sizes.nodes, 11)\n    ask(room",
     "    ask(len(table) == job.size(), 9)\n    ask(room >= PAGE_LINE * (job.sizes.states + 1), 24)\n"
     "    ask_table(job, table)\n    ask(node < job.sizes.nodes, 11)\n    ask(room"),
    ("page: 24 before 9", "    ask_table(job, table)\n    ask(node < job.sizes.nodes, 11)\n    ask(room",
     "    ask(room >= PAGE_LINE * (job.sizes.states + 1), 24)\n"
     "    ask_table(job, table)\n    ask(node < job.sizes.nodes, 11)\n    ask(room"),
    ("page: 11 before 10", "    ask_table(job, table)\n    ask(node < job.sizes.nodes, 11)\n    ask(room",
     "    ask(len(table) == job.size(), 9)\n    ask(node < job.sizes.nodes, 11)\n    ask_table(job, table)\n    ask(room"),
    ("page: 10 not asked", "    ask_table(job, table)\n    ask(node < job.sizes.nodes, 11)\n    ask(room",
     "    ask(len(table) == job.size(), 9)\n    ask(node < job.sizes.nodes, 11)\n    ask(room"),
    ("page: 11 lets N by", "ask(node < job.sizes.nodes, 11)\n    ask(room", "ask(node <= job.sizes.nodes, 11)\n    ask(room"),
    ("page: 255 known", "ask(node < job.sizes.nodes, 11)\n    ask(room", "ask(node < job.sizes.nodes or node == NO_NODE, 11)\n    ask(room"),
    ("page: 24 never", "    ask(room >= PAGE_LINE * (job.sizes.states + 1), 24)\n", ""),
    ("page: 24 for 80 x S", "PAGE_LINE * (job.sizes.states + 1), 24", "PAGE_LINE * job.sizes.states, 24"),
    ("page: 24 for 79 x (S + 1)", "room >= PAGE_LINE * (", "room >= (PAGE_LINE - 1) * ("),
    ("page: 24 for one byte less", "PAGE_LINE * (job.sizes.states + 1), 24", "PAGE_LINE * (job.sizes.states + 1) - 1, 24"),
    ("page: 24 for one byte more", "room >= PAGE_LINE", "room > PAGE_LINE"),
    ("page: 24 for the fragment's states", "(job.sizes.states + 1), 24", "(len(job.fragment[node]) + 1), 24"),
    ("page: a longer buffer refused", "room >= PAGE_LINE", "room == PAGE_LINE"),
    ("page: 24 with a line", "(job.sizes.states + 1), 24)", "(job.sizes.states + 1), 24, 1)"),
    ("page: the answer tells the lines", "    return [0, 0], bytes(table)\n", "    return [0, 0, job.sizes.states + 1], bytes(table)\n"),
]  # fmt: skip
"""Wrong readings of page's questions and of its answer."""


PAGE_MUTANTS: list[tuple[str, ...]] = [
    # The heading.
    ("heading missing", "[heading(job), *rows]", "rows"),
    ("heading behind the states", "[heading(job), *rows]", "[*rows, heading(job)]"),
    ("heading: numbers from 1", 'b"%2d" % k for k', 'b"%2d" % (k + 1) for k'),
    ("heading left-justified", 'b"%2d" % k for k', 'b"%-2d" % k for k'),
    ("heading with zeros before", 'b"%2d" % k for k', 'b"%02d" % k for k'),
    ("heading: the last digit alone", 'b"%2d" % k for k', 'b"%2d" % (k % 10) for k'),
    ("heading: a space before every number", 'b"%2d" % k for k', 'b" %d" % k for k'),
    ("heading in three columns", 'b"%2d" % k for k', 'b"%3d" % k for k'),
    ("heading in one column", 'b"%2d" % k for k', 'b"%d" % k for k'),
    ("heading behind 14 spaces", 'b" " * 15', 'b" " * 14'),
    ("heading behind 16 spaces", 'b" " * 15', 'b" " * 16'),
    ("heading of all 32 numbers", "numbers = range(job.sizes.formulas)", "numbers = range(32)"),
    ("heading: numbers downward", "numbers = range(job.sizes.formulas)", "numbers = reversed(range(job.sizes.formulas))"),
    ("heading: kinds for numbers", "numbers = range(job.sizes.formulas)", "numbers = [rule.kind for rule in job.rules]"),
    # The numbers of a state.
    ("states from 1", "numbers = (state,", "numbers = (state + 1,"),
    ("state and owner exchanged", "(state, job.owner[state], job.label[state])", "(job.owner[state], state, job.label[state])"),
    ("owner and label exchanged", "(state, job.owner[state], job.label[state])", "(state, job.label[state], job.owner[state])"),
    ("no owner", "(state, job.owner[state], job.label[state])", "(state, job.label[state])"),
    ("the node for the owner", "(state, job.owner[state],", "(state, node,"),
    ("the label of the next state", "job.label[state])", "job.label[(state + 1) % job.sizes.states])"),
    ("the label cut to a byte", "job.label[state])", "job.label[state] % 256)"),
    ("the label of 15 atoms", "job.label[state])", "job.label[state] % 2**15)"),
    ("label in four columns", 'b"".join(b"%5d" % n for n in numbers)', 'b"%5d%5d%4d" % numbers'),
    ("label of four digits", 'b"".join(b"%5d" % n for n in numbers)', '(b"%5d%5d" % numbers[:2] + (b"%5d" % numbers[2])[-4:].rjust(5))'),
    ("a space before every number", 'b"%5d" % n', 'b" %4d" % n'),
    ("numbers to the left", 'b"%5d" % n', 'b"%-5d" % n'),
    ("numbers with zeros before", 'b"%5d" % n', 'b"%05d" % n'),
    # The cells.
    ("2 for empty", 'EMPTY: b"."', 'EMPTY: b"2"'),
    ("a space for empty", 'EMPTY: b"."', 'EMPTY: b" "'),
    ("0 for empty", 'EMPTY: b"."', 'EMPTY: b"0"'),
    ("0 and 1 exchanged", 'FALSE: b"0", TRUE: b"1"', 'FALSE: b"1", TRUE: b"0"'),
    ("bytes 0 and 1", 'FALSE: b"0", TRUE: b"1"', 'FALSE: b"\\0", TRUE: b"\\1"'),
    ("the space behind the mark", 'b" " + MARKS[cell]', 'MARKS[cell] + b" "'),
    ("marks without a space", 'b" " + MARKS[cell]', 'MARKS[cell]'),
    ("marks in three columns", 'b" " + MARKS[cell]', 'b"  " + MARKS[cell]'),
    ("subformulas downward", "for cell in cells)", "for cell in cells[::-1])"),
    ("the last subformula left out", "for cell in cells)", "for cell in cells[:-1])"),
    ("the page of node 0", "job.cell(node, state, 0)", "job.cell(0, state, 0)"),
    ("the page of the next node", "job.cell(node, state, 0)", "job.cell((node + 1) % job.sizes.nodes, state, 0)"),
    ("the page of the last node", "job.cell(node, state, 0)", "job.cell(job.sizes.nodes - 1, state, 0)"),
    ("the owner's cells", "job.cell(node, state, 0)", "job.cell(job.owner[state], state, 0)"),
    ("cells of the next state", "job.cell(node, state, 0)", "job.cell(node, (state + 1) % job.sizes.states, 0)"),
    ("cells by subformula, then by state", "cells = table[first : first + job.sizes.formulas]",
     "cells = table[job.cell(node, 0, 0) :][state :: job.sizes.states][: job.sizes.formulas]"),
    ("cells by state, then by node", "cells = table[first : first + job.sizes.formulas]",
     "cells = table[(state * job.sizes.nodes + node) * job.sizes.formulas :][: job.sizes.formulas]"),
    ("cells of border states not shown", "cells = table[first : first + job.sizes.formulas]",
     "cells = table[first : first + job.sizes.formulas] if state not in job.border[node] else bytes([EMPTY]) * job.sizes.formulas"),
    ("cells that a step would fill", "page(checker.parse(text), table, node)", "page(checker.parse(text), checker.step(text, table, node)[1], node)"),
    ("cells that finish would fill", "page(checker.parse(text), table, node)", "page(checker.parse(text), checker.finish(text, table)[1], node)"),
    # The lines.
    ("states outside the fragment left out", "for s in range(job.sizes.states)]", "for s in job.fragment[node]]"),
    ("states of other owners left out", "for s in range(job.sizes.states)]", "for s in job.owned[node]]"),
    ("the last state left out", "for s in range(job.sizes.states)]", "for s in range(job.sizes.states - 1)]"),
    ("states downward", "for s in range(job.sizes.states)]", "for s in reversed(range(job.sizes.states))]"),
    ("the node's states first", "for s in range(job.sizes.states)]", "for s in sorted(range(job.sizes.states), key=lambda s: job.owner[s] != node)]"),
    ("lines of 78 columns", "COLUMNS = 79", "COLUMNS = 78"),
    ("lines of 80 columns", "COLUMNS = 79", "COLUMNS = 80"),
    ("lines not filled", "line.ljust(COLUMNS)", "line"),
    ("heading not filled", "line.ljust(COLUMNS)", "(line.ljust(COLUMNS) if line in rows else line)"),
    ("states' lines not filled", "line.ljust(COLUMNS)", "(line if line in rows else line.ljust(COLUMNS))"),
    ("the last line not filled", "line.ljust(COLUMNS)", "(line if line == rows[-1] else line.ljust(COLUMNS))"),
    ("lines filled with bytes 0", "line.ljust(COLUMNS)", "line.ljust(COLUMNS, b'\\0')"),
    ("lines filled with dots", "line.ljust(COLUMNS)", "line.ljust(COLUMNS, b'.')"),
    ("lines filled from the left", "line.ljust(COLUMNS)", "line.rjust(COLUMNS)"),
    ("byte 13", 'line.ljust(COLUMNS) + b"\\n"', 'line.ljust(COLUMNS) + b"\\r"'),
    ("bytes 13 and 10", 'line.ljust(COLUMNS) + b"\\n"', 'line.ljust(COLUMNS) + b"\\r\\n"'),
    ("byte 0 behind a line", 'line.ljust(COLUMNS) + b"\\n"', 'line.ljust(COLUMNS) + b"\\0"'),
    ("no byte 10", 'line.ljust(COLUMNS) + b"\\n"', 'line.ljust(COLUMNS)'),
    ("byte 10 stays behind the last line", "lines + buffer[len(lines) :]", "lines[:-1] + buffer[len(lines) - 1 :]"),
    # The buffer.
    ("bytes past the lines are spaces", "lines + buffer[len(lines) :]", "lines.ljust(len(buffer))"),
    ("bytes past the lines are 0", "lines + buffer[len(lines) :]", "lines.ljust(len(buffer), b'\\0')"),
    ("the byte past the lines is 0", "lines + buffer[len(lines) :]", "(lines + b'\\0' + buffer[len(lines) + 1 :])[: len(buffer)]"),
    ("the lines at the end of the buffer", "lines + buffer[len(lines) :]", "buffer[: len(buffer) - len(lines)] + lines"),
    ("the page again, as often as there is room", "lines + buffer[len(lines) :]", "(lines * (len(buffer) // len(lines)) + buffer[-(len(buffer) % len(lines)) :])[: len(buffer)]"),
    ("an accepted call writes nothing", "lines + buffer[len(lines) :]", "buffer"),
    ("a refused call clears the buffer", "return answer, bytes(buffer)", "return answer, bytes(len(buffer))"),
    ("a refused text clears the buffer", "return answer, bytes(buffer)", "return answer, bytes(len(buffer)) if answer[0] < 9 else buffer"),
    ("a refused table clears the buffer", "return answer, bytes(buffer)", "return answer, bytes(len(buffer)) if 9 <= answer[0] <= 10 else buffer"),
    ("11 clears the buffer", "return answer, bytes(buffer)", "return answer, bytes(len(buffer)) if answer[0] == 11 else buffer"),
    ("24 clears the buffer", "return answer, bytes(buffer)", "return answer, bytes(len(buffer)) if answer[0] == 24 else buffer"),
    ("24 fills the buffer with spaces", "return answer, bytes(buffer)", "return answer, b' ' * len(buffer) if answer[0] == 24 else buffer"),
    ("24 writes what fits", "return answer, bytes(buffer)",
     "return answer, page(checker.parse(text), table, node)[: len(buffer)] if answer[0] == 24 else buffer"),
    ("24 writes the lines that fit", "return answer, bytes(buffer)",
     "fit = page(checker.parse(text), table, node)[: len(buffer) // 80 * 80] if answer[0] == 24 else b''\n        return answer, fit + buffer[len(fit) :]"),
    # The node that is not named.
    ("255 read as the owner", "checker.page(text, table, node, len", "checker.page(text, table, node if node != NO_NODE else 0, len",
     "first = job.cell(node, state, 0)", "first = job.cell(node if node != NO_NODE else job.owner[state], state, 0)"),
    ("255 read as node 0", "checker.page(text, table, node, len", "checker.page(text, table, node % 255, len",
     "page(checker.parse(text), table, node)\n", "page(checker.parse(text), table, node % 255)\n"),
]  # fmt: skip
"""Wrong readings of the page and of the buffer."""


PROGRAM_MUTANTS: list[tuple[str, ...]] = [
    # The node.
    ("01 is node 1", 'rb"[0-9]", first', 'rb"0?[0-9]", first'),
    ("+1 is node 1", 'rb"[0-9]", first', 'rb"[+]?[0-9]", first'),
    ("spaces around the digit", 'rb"[0-9]", first', 'rb" *[0-9] *", first'),
    ("byte 10 behind the digit", 're.fullmatch(rb"[0-9]", first)', 're.match(rb"[0-9]$", first)'),
    ("256 cut to node 0", 'int(first) if re.fullmatch(rb"[0-9]", first)', 'int(first) % 256 if re.fullmatch(rb"[0-9]|[1-9][0-9]{1,19}", first)'),
    ("a longer argument read by its first byte", 'first = arguments[0] if arguments else b""', 'first = arguments[0][:1] if arguments else b""'),
    ("a longer argument read by its last byte", 'first = arguments[0] if arguments else b""', 'first = arguments[0][-1:] if arguments else b""'),
    ("the last argument read", "first = arguments[0] if arguments", "first = arguments[-1] if arguments"),
    ("all arguments read as one", "first = arguments[0] if arguments", 'first = b"".join(arguments) if arguments'),
    ("further arguments not let by", "first = arguments[0] if arguments else", "first = arguments[0] if len(arguments) == 1 else"),
    ("node 0 where no argument is", 'if arguments else b""', 'if arguments else b"0"'),
    ("node 0 for an empty argument", "first = arguments[0] if", 'first = arguments[0] or b"0" if'),
    ("node 0 for what names none", 'rb"[0-9]", first) else NO_NODE', 'rb"[0-9]", first) else 0'),
    ("nodes from 1", "return int(first) if", "return (int(first) or 10) - 1 if"),
    # The order.
    ("the node asked before the text", "    if number == 0:\n        room",
     "    if named(arguments) == NO_NODE:\n        return written_line((11, 0))\n    if number == 0:\n        room"),
    ("nodes 8 and 9 asked before the text", "    if number == 0:\n        room",
     "    if 8 <= named(arguments) < NO_NODE:\n        return written_line((11, 0))\n    if number == 0:\n        room"),
    ("a text too long read without its end", "text = text[: LONGEST + 1]", "text = text[:LONGEST]"),
    # The table.
    ("the table fresh", "lent(text, finished(text),", "lent(text, bytes([EMPTY]) * checker.parse(text).size(),"),
    ("the table after a step of each node", "        (number, line), lines = lent(text, finished(text),",
     "        table = bytes([EMPTY]) * checker.parse(text).size()\n"
     "        for node in range(checker.sizes(text).nodes):\n            table = checker.step(text, table, node)[1]\n"
     "        (number, line), lines = lent(text, table,"),
    # What is printed.
    ("a refusal with one field", "else written_line((number, line))", "else written_line((number,))"),
    ("a refusal with five fields", "else written_line((number, line))", "else written_line((number, line, 0, 0, 0))"),
    ("a refusal without its line's number", "else written_line((number, line))", "else written_line((number, 0))"),
    ("a refusal not told", "else written_line((number, line))", 'else b""'),
    ("a line of zeros before the page", "return lines if number == 0", "return written_line((0, 0)) + lines if number == 0"),
    ("the whole of the largest buffer printed", "PAGE_LINE * (states + 1)", "PAGE_LINE * 257"),
    ("an empty line behind the page", "return lines if number == 0", 'return lines + b"\\n" if number == 0'),
]  # fmt: skip
"""Wrong readings of the program `page`: of its argument and of what it prints."""


TRUTH_MUTANTS: list[tuple[str, ...]] = [
    ("truth: AX and EX exchanged", "elif kind == AX:\n            here", "elif kind == EX:\n            here",
     "elif kind == EX:\n            here = {s for s in every if not", "elif kind == AX:\n            here = {s for s in every if not"),
    ("truth: E(a U b) without a", "reaching(job, holds[b], holds[a])", "reaching(job, holds[b], every)"),
    ("truth: A(a U b) where b never comes", "(without - holds[a]) | on_cycles(job, without)", "without - holds[a]"),
    ("truth: EG and AG exchanged", "elif kind == EG:\n            # A walk", "elif kind == AG:\n            # A walk",
     "elif kind == AG:\n            here", "elif kind == EG:\n            here"),
    ("truth: EG a on a cycle with other states", "on_cycles(job, holds[a])", "on_cycles(job, every) & holds[a]"),
    ("truth: EG a on the cycle alone", "reaching(job, on_cycles(job, holds[a]), holds[a])", "on_cycles(job, holds[a])"),
    ("truth: EG a at the cycle, whatever comes before", "on_cycles(job, holds[a]), holds[a])", "on_cycles(job, holds[a]), every)"),
    ("truth: EG a where a may end", "reaching(job, on_cycles(job, holds[a]), holds[a])", "holds[a]"),
    ("truth: AG a here and at the successors", "every - reaching(job, every - holds[a], every)",
     "{s for s in holds[a] if holds[a].issuperset(job.successors[s])}"),
    ("truth: AG a at all other states", "every - reaching(job, every - holds[a], every)",
     "every - (reaching(job, every - holds[a], every) - (every - holds[a]))"),
]  # fmt: skip
"""Wrong readings of truth on the uncut structure."""


RULE_MUTANTS: list[tuple[str, ...]] = [
    # The grammar.
    ("=> groups to the left", '("rule", "either => rule")', '("rule", "rule => either")'),
    ("& groups to the right", '("both", "both & prefixed")', '("both", "prefixed & both")'),
    ("| groups to the right", '("either", "either | both")', '("either", "both | either")'),
    ("=> does not group", '("rule", "either => rule")', '("rule", "either => either")'),
    ("& and | of one strength, to the left",
     '("either", "either | both"),\n        ("either", "both"),\n        ("both", "both & prefixed"),\n        ("both", "prefixed")',
     '("either", "either | prefixed"),\n        ("either", "either & prefixed"),\n        ("either", "prefixed")'),
    ("| and => of one strength, to the right",
     '("rule", "either => rule"),\n        ("rule", "either"),\n        ("either", "either | both"),\n        ("either", "both")',
     '("rule", "both => rule"),\n        ("rule", "both | rule"),\n        ("rule", "both")'),
    ("| binds tighter than &",
     '"either | both"),\n        ("either", "both"),\n        ("both", "both & prefixed")',
     '"either & both"),\n        ("either", "both"),\n        ("both", "both | prefixed")'),
    ("=> binds tighter than |",
     '("rule", "either => rule"),\n        ("rule", "either"),\n        ("either", "either | both"),\n        ("either", "both")',
     '("rule", "rule | either"),\n        ("rule", "either"),\n        ("either", "both => either"),\n        ("either", "both")'),
    ("=> binds tighter than &",
     '("rule", "either => rule"),\n        ("rule", "either"),\n        ("either", "either | both"),\n        ("either", "both"),\n        ("both", "both & prefixed"),\n        ("both", "prefixed")',
     '("rule", "rule | either"),\n        ("rule", "either"),\n        ("either", "either & both"),\n        ("either", "both"),\n        ("both", "prefixed => both"),\n        ("both", "prefixed")'),
    ("! binds weaker than &",
     '("either", "both"),\n        ("both", "both & prefixed"),\n        ("both", "prefixed"),\n        ("prefixed", "! prefixed")',
     '("either", "not"),\n        ("not", "! not"),\n        ("not", "both"),\n        ("both", "both & prefixed"),\n        ("both", "prefixed")'),
    ("AX binds weaker than &",
     '("either", "both"),\n        ("both", "both & prefixed"),\n        ("both", "prefixed"),\n        ("prefixed", "! prefixed"),\n        ("prefixed", "AX prefixed")',
     '("either", "next"),\n        ("next", "AX next"),\n        ("next", "both"),\n        ("both", "both & prefixed"),\n        ("both", "prefixed"),\n        ("prefixed", "! prefixed")'),
    ("EG binds weaker than &",
     '("either", "both"),\n        ("both", "both & prefixed"),\n        ("both", "prefixed"),\n',
     '("either", "along"),\n        ("along", "EG along"),\n        ("along", "both"),\n        ("both", "both & prefixed"),\n        ("both", "prefixed"),\n',
     '        ("prefixed", "EG prefixed"),\n', ""),
    ("AG takes all that follows", '("prefixed", "AG prefixed")', '("rule", "AG rule")'),
    ("EG only before a closed form", '"EG prefixed"', '"EG closed"'),
    ("AG needs brackets", '"AG prefixed"', '"AG ( rule )"'),
    ("EG[f] let by", '("prefixed", "AG prefixed"),', '("prefixed", "AG prefixed"),\n        ("prefixed", "EG [ rule ]"),'),
    ("! takes all that follows", '("prefixed", "! prefixed")', '("rule", "! rule")'),
    ("EX takes all that follows", '("prefixed", "EX prefixed")', '("rule", "EX rule")'),
    ("! only before a closed form", '"! prefixed"', '"! closed"'),
    ("AX only before a closed form", '"AX prefixed"', '"AX closed"'),
    ("EX needs brackets", '"EX prefixed"', '"EX ( rule )"'),
    ("A[f U g]: f only a closed form", '"A [ rule U rule ]"', '"A [ closed U rule ]"'),
    ("A[f U g]: g only a closed form", '"A [ rule U rule ]"', '"A [ rule U closed ]"'),
    ("E[f U g]: f without =>", '"E [ rule U rule ]"', '"E [ either U rule ]"'),
    ("E[f U g]: g without |", '"E [ rule U rule ]"', '"E [ rule U both ]"'),
    ("A[f U g U h] let by",
     '("closed", "A [ rule U rule ]"),', '("closed", "A [ rule U until ]"),\n        ("until", "rule U until"),\n        ("until", "rule"),'),
    ("A(f U g) let by", '("closed", "( rule )"),', '("closed", "( rule )"),\n        ("closed", "A ( rule U rule )"),'),
    ("[f] let by", '("closed", "( rule )"),', '("closed", "( rule )"),\n        ("closed", "[ rule ]"),'),
    ("(f] let by", '("closed", "( rule )"),', '("closed", "( rule )"),\n        ("closed", "( rule ]"),'),
    ("f U g let by, without A or E", '("closed", "( rule )"),', '("closed", "( rule )"),\n        ("closed", "( rule U rule )"),'),
    ("() let by", '("closed", "( rule )"),', '("closed", "( rule )"),\n        ("closed", "( )"),'),
    ("AF let by", '("prefixed", "EX prefixed"),', '("prefixed", "EX prefixed"),\n        ("prefixed", "AF prefixed"),'),
    ("EF let by", '("prefixed", "EX prefixed"),', '("prefixed", "EX prefixed"),\n        ("prefixed", "EF prefixed"),'),
    ("EG not let by", '        ("prefixed", "EG prefixed"),\n', ""),
    ("AG not let by", '        ("prefixed", "AG prefixed"),\n', ""),
    ("&& let by", '("both", "prefixed"),', '("both", "prefixed"),\n        ("both", "both & & prefixed"),'),
    ("what follows a whole rule let by",
     "        if action is None:\n            return None\n        states.append(action)",
     "        if action is None:\n            return values[0] if len(values) == 1 and isinstance(values[0], tuple) else None\n        states.append(action)"),
    ("a last ) may be missing",
     "    reading = tree(text)\n", "    reading = tree(text) or tree(text + b')')\n"),
    ("a last ] may be missing",
     "    reading = tree(text)\n", "    reading = tree(text) or tree(text + b']')\n"),
    ("over 100 brackets refused",
     "    reading = tree(text)\n", "    reading = None if b'(' * 101 in text else tree(text)\n"),
    ("over 100 prefixes refused with 22",
     "    reading = tree(text)\n", "    reading = None if b'!' * 101 in text else tree(text)\n"),
    ("the empty text is a rule of no lines",
     "    reading = tree(text)\n", "    if not text.strip(b' '):\n        return [0, 0, 0], buffer\n    reading = tree(text)\n"),
    # The tokens.
    ("AXp0 let by", 'rb"[A-Za-z0-9]+|=>|[^ ]"', 'rb"[AE]X|[A-Za-z0-9]+|=>|[^ ]"'),
    ("EGp0 let by", 'rb"[A-Za-z0-9]+|=>|[^ ]"', 'rb"EG|[A-Za-z0-9]+|=>|[^ ]"'),
    ("AGp0 let by", 'rb"[A-Za-z0-9]+|=>|[^ ]"', 'rb"AG|[A-Za-z0-9]+|=>|[^ ]"'),
    ("U run together with its operands let by", 'rb"[A-Za-z0-9]+|=>|[^ ]"', 'rb"[A-TV-Za-z0-9]+|U|=>|[^ ]"'),
    ("an atom run together with U let by", 'rb"[A-Za-z0-9]+|=>|[^ ]"', 'rb"p[0-9]+|[A-Za-z0-9]+|=>|[^ ]"'),
    ("a space needed between any two tokens", 'rb"[A-Za-z0-9]+|=>|[^ ]"', 'rb"[^ ]+"'),
    ("a space needed behind !", 'rb"[A-Za-z0-9]+|=>|[^ ]"', 'rb"!?[A-Za-z0-9]+|=>|[^ ]"'),
    ("A and [ are one token", 'rb"[A-Za-z0-9]+|=>|[^ ]"', 'rb"[AE] |[A-Za-z0-9]+|=>|[^ ]"'),
    ("= > let by", "WORDS.findall(text)", "WORDS.findall(re.sub(b'= +>', b'=>', text))"),
    ("A X let by", "WORDS.findall(text)", "WORDS.findall(re.sub(b'([AE]) +X', rb'\\1X', text))"),
    ("A G let by", "WORDS.findall(text)", "WORDS.findall(re.sub(b'([AE]) +G', rb'\\1G', text))"),
    ("p 0 let by", "WORDS.findall(text)", "WORDS.findall(re.sub(b'p +', b'p', text))"),
    ("-> let by", "WORDS.findall(text)", "WORDS.findall(text.replace(b'->', b'=>'))"),
    ("p16 let by", 'rb"p([0-9]|1[0-5])"', 'rb"p([0-9]|1[0-6])"'),
    ("p15 refused", 'rb"p([0-9]|1[0-5])"', 'rb"p([0-9]|1[0-4])"'),
    ("p10 to p15 refused", 'rb"p([0-9]|1[0-5])"', 'rb"p[0-9]"'),
    ("p00 let by", 'rb"p([0-9]|1[0-5])"', 'rb"p([0-9]|1[0-5]|00)"'),
    ("p01 let by", 'rb"p([0-9]|1[0-5])"', 'rb"p(0?[0-9]|1[0-5])"'),
    ("p alone let by", 'rb"p([0-9]|1[0-5])"', 'rb"p([0-9]|1[0-5])?"'),
    ("p1 read for p10", 'int(tree[0][1:])', 'int(tree[0][1:2])'),
    ("small letters let by", "WORDS.findall(text)", "WORDS.findall(text.replace(b'P', b'p').replace(b'ax', b'AX').replace(b'u', b'U'))"),
    ("a tab is a space", 'rb"[A-Za-z0-9]+|=>|[^ ]"', 'rb"[A-Za-z0-9]+|=>|[^ \\t]"'),
    ("byte 10 is a space", 'rb"[A-Za-z0-9]+|=>|[^ ]"', 'rb"[A-Za-z0-9]+|=>|[^ \\n]"'),
    ("byte 13 is a space", 'rb"[A-Za-z0-9]+|=>|[^ ]"', 'rb"[A-Za-z0-9]+|=>|[^ \\r]"'),
    ("byte 160 is a space", 'rb"[A-Za-z0-9]+|=>|[^ ]"', 'rb"[A-Za-z0-9]+|=>|[^ \\xa0]"'),
    ("a last byte 10 is dropped", "    reading = tree(text)\n", "    reading = tree(text.removesuffix(b'\\n'))\n"),
    ("byte 0 ends the text", "    reading = tree(text)\n", "    reading = tree(text.split(b'\\0')[0])\n"),
    ("the eighth bit is dropped", "    reading = tree(text)\n", "    reading = tree(bytes(byte & 127 for byte in text))\n"),
    ("no space before the first token", "    reading = tree(text)\n", "    reading = None if text[:1] == b' ' else tree(text)\n"),
    ("no space behind the last token", "    reading = tree(text)\n", "    reading = None if text[-1:] == b' ' else tree(text)\n"),
    ("one space at most", "    reading = tree(text)\n", "    reading = None if b'  ' in text else tree(text)\n"),
    # The rule rewritten.
    ("f | g: f, g, not f, not g",
     "        return found.setdefault(line, len(found))\n",
     "        return found.setdefault(line, len(found))\n\n    def operands(tree):\n"
     "        for f in tree[1:]:\n            operands(f)\n"
     "        if tree[0] == '|':\n            number(rewritten(tree[1])), number(rewritten(tree[2]))\n\n    operands(tree)\n"),
    ("f | g: operands exchanged", '("&", ("!", f), ("!", g))', '("&", ("!", g), ("!", f))'),
    ("f => g as not f | g", '"!", ("&", f, ("!", g))', '"!", ("&", ("!", ("!", f)), ("!", g))'),
    ("f => g: not g first", '("&", f, ("!", g))', '("&", ("!", g), f)'),
    ("f => g as not g => not f", '("&", f, ("!", g))', '("&", ("!", g), ("!", ("!", f)))'),
    ("f => g as g => f", '("&", f, ("!", g))', '("&", g, ("!", f))'),
    ("!!p0 is p0", "    if len(tree) == 2:\n        return word, f\n",
     "    if word == f[0] == '!':\n        return f[1]\n    if len(tree) == 2:\n        return word, f\n"),
    ("p0 & p0 is p0", "    return word, f, g\n", "    return f if word == '&' and f == g else (word, f, g)\n"),
    ("!AX p0 is EX !p0", "    if len(tree) == 2:\n        return word, f\n",
     "    if word == '!' and f[0] == 'AX':\n        return 'EX', ('!', f[1])\n    if len(tree) == 2:\n        return word, f\n"),
    # The lines.
    ("equal lines written again",
     "        return found.setdefault(line, len(found))\n\n    number(rewritten(tree))\n    return list(found)",
     "        written.append(line)\n        return len(written) - 1\n\n    written = []\n    number(rewritten(tree))\n    return written"),
    ("equal atoms alone left out",
     "        return found.setdefault(line, len(found))\n\n    number(rewritten(tree))\n    return list(found)",
     "        if line in written and line[0] == ATOM:\n            return written.index(line)\n        written.append(line)\n        return len(written) - 1\n\n"
     "    written = []\n    number(rewritten(tree))\n    return written"),
    ("equal EG and AG written again",
     "        return found.setdefault(line, len(found))\n\n    number(rewritten(tree))\n    return list(found)",
     "        if line in written and line[0] not in (EG, AG):\n            return written.index(line)\n        written.append(line)\n        return len(written) - 1\n\n"
     "    written = []\n    number(rewritten(tree))\n    return written"),
    ("equal to the line before alone left out",
     "        return found.setdefault(line, len(found))\n\n    number(rewritten(tree))\n    return list(found)",
     "        if written[-1:] != [line]:\n            written.append(line)\n        return len(written) - 1\n\n    written = []\n    number(rewritten(tree))\n    return written"),
    ("lines of one kind and one a are equal",
     "        return found.setdefault(line, len(found))\n",
     "        return next((n for other, n in found.items() if other[:2] == line[:2]), None) or found.setdefault(line, len(found))\n"),
    ("lines with one a and one b are equal",
     "        return found.setdefault(line, len(found))\n",
     "        return next((n for other, n in found.items() if other[0] > ATOM and other[1:] == line[1:]), None) or found.setdefault(line, len(found))\n"),
    ("g & f equal to f & g", "        return found.setdefault(line, len(found))\n",
     "        if line[0] == AND:\n            line = Rule(AND, min(a, b), max(a, b))\n        return found.setdefault(line, len(found))\n"),
    ("the right operand's lines first",
     "            a = number(tree[1])\n            b = number(tree[2]) if len(tree) == 3 else 0\n",
     "            b = number(tree[2]) if len(tree) == 3 else 0\n            a = number(tree[1])\n"),
    ("the right operand's lines first for U",
     "            a = number(tree[1])\n            b = number(tree[2]) if len(tree) == 3 else 0\n",
     "            until = tree[0] in ('A', 'E')\n            b = number(tree[2]) if until else 0\n"
     "            a = number(tree[1])\n            b = b if until or len(tree) == 2 else number(tree[2])\n"),
    ("all atoms first", "    number(rewritten(tree))\n",
     "    for word in re.findall(\"p[0-9]+\", repr(tree)):\n        number((word,))\n    number(rewritten(tree))\n"),
    ("the whole rule first", "    return list(found)\n",
     "    last = len(found) - 1\n    return [Rule(k, a if k == ATOM else last - a, last - b if k in (AND, AU, EU) else 0) for k, a, b in reversed(found)]\n"),
    ("a and b exchanged", "Rule(KINDS[tree[0]], a, b)", "Rule(KINDS[tree[0]], *((b, a) if len(tree) == 3 else (a, b)))"),
    ("b = a where it is not used", "if len(tree) == 3 else 0", "if len(tree) == 3 else a"),
    ("subformulas counted from 1", "Rule(KINDS[tree[0]], a, b)", "Rule(KINDS[tree[0]], a + 1, b + 1 if len(tree) == 3 else 0)"),
    ("AX and EX exchanged", '"AX": AX, "EX": EX', '"AX": EX, "EX": AX'),
    ("A and E exchanged", '"A": AU, "E": EU', '"A": EU, "E": AU'),
    ("EG read as AG, AG as EG", '"EG": EG, "AG": AG', '"EG": AG, "AG": EG'),
    ("EG written as kind 9", '"EG": EG', '"EG": AG'),
    ("AG written as kind 8", '"AG": AG', '"AG": EG'),
    ("EG and AG written as AX and EX", '"EG": EG, "AG": AG', '"EG": EX, "AG": AX'),
    # The questions and the answer.
    ("512 bytes refused", "LONGEST = 512", "LONGEST = 511"),
    ("513 bytes let by", "LONGEST = 512", "LONGEST = 513"),
    ("spaces behind not counted", "len(text) <= LONGEST", "len(text.rstrip(b' ')) <= LONGEST"),
    ("32 lines refused", "MOST = 32", "MOST = 31"),
    ("33 lines let by", "MOST = 32", "MOST = 33"),
    ("23 counts equal lines", "ask(len(found) <= MOST, 23)", "ask(len(re.findall('p|!|AX|EX|&|A|E', repr(rewritten(reading)))) <= MOST, 23)"),
    ("23 counts the words of the text", "ask(len(found) <= MOST, 23)", "ask(repr(reading).count(\"('\") <= MOST, 23)\n    found = found[:MOST]"),
    ("22 and 23 are one", "ask(len(found) <= MOST, 23)", "ask(len(found) <= MOST, 22)"),
    ("23 before 22, by what comes before the mistake", "    ask(reading is not None, 22)\n",
     "    before = next(filter(None, (tree(text[:n]) for n in range(len(text), 0, -1))), (\"p0\",))\n"
     "    ask(len(lines(before)) <= MOST, 23)\n    ask(reading is not None, 22)\n"),
    ("23 before 22, by the length", "    ask(len(text) <= LONGEST, 22)\n    reading = tree(text)\n    ask(reading is not None, 22)\n    found = lines(reading)\n    ask(len(found) <= MOST, 23)\n",
     "    reading = tree(text)\n    ask(reading is not None, 22)\n    found = lines(reading)\n    ask(len(found) <= MOST, 23)\n    ask(len(text) <= LONGEST, 22)\n"),
    ("21 after 22", "    ask(len(buffer) == ROOM, 21)\n    ask(len(text) <= LONGEST, 22)\n    reading = tree(text)\n    ask(reading is not None, 22)\n",
     "    ask(len(text) <= LONGEST, 22)\n    reading = tree(text)\n    ask(reading is not None, 22)\n    ask(len(buffer) == ROOM, 21)\n"),
    ("21 between the halves of 22", "    ask(len(buffer) == ROOM, 21)\n    ask(len(text) <= LONGEST, 22)\n", "    ask(len(text) <= LONGEST, 22)\n    ask(len(buffer) == ROOM, 21)\n"),
    ("21 after 23", "    ask(len(buffer) == ROOM, 21)\n    ask(len(text) <= LONGEST, 22)\n    reading = tree(text)\n    ask(reading is not None, 22)\n    found = lines(reading)\n    ask(len(found) <= MOST, 23)\n",
     "    ask(len(text) <= LONGEST, 22)\n    reading = tree(text)\n    ask(reading is not None, 22)\n    found = lines(reading)\n    ask(len(found) <= MOST, 23)\n    ask(len(buffer) == ROOM, 21)\n"),
    ("21 lets longer buffers by", "len(buffer) == ROOM", "len(buffer) >= ROOM"),
    ("21 lets shorter buffers by where the lines fit", "    ask(len(buffer) == ROOM, 21)\n", "    ask(len(buffer) == ROOM or 16 * len(lines(tree(text) or ('p0',) * 99)) <= len(buffer) < ROOM, 21)\n"),
    ("bytes behind the lines are 0", "start + buffer[len(start) :]", "start.ljust(ROOM, b'\\0')"),
    ("bytes behind the lines are spaces", "start + buffer[len(start) :]", "start.ljust(ROOM)"),
    ("the byte behind the lines is 0", "start + buffer[len(start) :]", "(start + b'\\0' + buffer[len(start) + 1 :])[:ROOM]"),
    ("the lines at the end of the buffer", "start + buffer[len(start) :]", "buffer[: ROOM - len(start)] + start"),
    ("lines without byte 10", "start = written(found)", "start = written(found).replace(b'\\n', b' ')"),
    ("numbers to the left", "start = written(found)", "start = b''.join(b'%-5d%-5d%-5d\\n' % line for line in found)"),
    ("numbers with zeros before", "start = written(found)", "start = b''.join(b'%05d%05d%05d\\n' % line for line in found)"),
    ("the answer is the whole rule's number", "[0, 0, len(found)]", "[0, 0, len(found) - 1]"),
    ("23 tells the lines", "ask(len(found) <= MOST, 23)", "if len(found) > MOST:\n        return [23, 0, len(found)], buffer"),
    ("23 writes the first 32 lines", "ask(len(found) <= MOST, 23)", "if len(found) > MOST:\n        return [23, 0, 0], written(found[:MOST])"),
    ("23 stops at 32 lines", "ask(len(found) <= MOST, 23)", "found = found[:MOST]"),
    ("22 clears the buffer", "    ask(reading is not None, 22)\n", "    if reading is None:\n        return [22, 0, 0], bytes(ROOM)\n"),
    ("22 writes what comes before the mistake", "    ask(reading is not None, 22)\n",
     "    if reading is None:\n        before = next(filter(None, (tree(text[:n]) for n in range(len(text), 0, -1))), None)\n"
     "        start = written(lines(before)[:MOST]) if before else b''\n        return [22, 0, 0], start + buffer[len(start) :]\n"),
    ("22 with the place of the mistake", "    ask(reading is not None, 22)\n", "    ask(reading is not None, 22, len(text))\n"),
]  # fmt: skip
"""Wrong readings of rule text."""


def module(model: types.ModuleType, name: str, *places: str) -> types.ModuleType:
    """A model with places of its source written otherwise: each as it is, and as
    it becomes."""
    source = pathlib.Path(model.__file__).read_text()
    for old, new in zip(places[::2], places[1::2]):
        assert source.count(old) == 1, (name, source.count(old))
        source = source.replace(old, new)
    made = types.ModuleType("mutant")
    sys.modules["mutant"] = made
    exec(compile(source, "mutant", "exec"), made.__dict__)
    return made


def modules(
    model: types.ModuleType, mutants: list[tuple[str, ...]]
) -> dict[str, types.ModuleType]:
    """The mutants of a model, by name."""
    return {mutant[0]: module(model, *mutant) for mutant in mutants}


def set_modules() -> Iterator[tuple[str, types.ModuleType]]:
    """The mutants of the sets, by name: each of the kinds alone whose smallest
    set has cells of one value."""
    for mutant in SET_MUTANTS:
        for kinds, value in (("untils", checker.TRUE), ("EG, AG", checker.FALSE)):
            made = module(checker, *mutant)
            wrong = made.rule_of_sets

            def sets(job, node, own, rule, wrong=wrong, value=value):
                found = wrong if rule.value == value else checker.rule_of_sets
                return found(job, node, own, rule)

            made.rule_of_sets = sets
            yield f"{kinds}: {mutant[0]}", made


def asked_modules() -> Iterator[tuple[str, types.ModuleType]]:
    """The page by the mutants of its questions, by name."""
    for name, asking in ASKING_MODELS.items():
        made = module(pages, name)
        made.checker = asking
        yield name, made


def program_modules() -> Iterator[tuple[str, types.ModuleType]]:
    """The mutants of the program, by name.  None is of finish, which is dear: the
    model's is kept, with the tables that it has made already."""
    for name, made in modules(pages, PROGRAM_MUTANTS).items():
        made.finished = pages.finished
        yield name, made


def answers(model: types.ModuleType, trial: trials.Trial) -> list[object]:
    """All that the model says of a case."""
    said: list[object] = []
    table = trial.table
    try:
        said.append(model.read(trial.text))
        said += [model.line(trial.text, at) for at in trial.lines]
        for name, numbers in trial.calls:
            answer, table = getattr(model, name)(trial.text, table, *numbers)
            said.append((answer, table))
    except Exception as wrong:  # a mutant may run into a wall
        said.append(repr(wrong))
    return said


SET_MODELS = dict(set_modules())
FAULT_MODELS = modules(checker, FAULT_MUTANTS)
READER_MODELS = modules(checker, TEXT_MUTANTS) | FAULT_MODELS
ASKING_MODELS = modules(checker, PAGE_QUESTION_MUTANTS)
MODELS = SET_MODELS | modules(checker, MUTANTS) | READER_MODELS | ASKING_MODELS
TRUTH_MODELS = modules(checker, TRUTH_MUTANTS)
RULE_MODELS = modules(rules, RULE_MUTANTS)
PAGE_MODELS = modules(pages, PAGE_MUTANTS)
ASKED_MODELS = dict(asked_modules())
PROGRAM_MODELS = dict(program_modules())
"""The mutants as models.  Those of page's questions are among those of the calls;
as models of the page they are ASKED_MODELS."""


def noticed(trial: trials.Trial, names: Iterable[str]) -> list[str]:
    """Those of the mutants that answer a case otherwise than the model: where the
    text is refused, only those of the reader can."""
    if checker.read(trial.text)[0] != 0:
        names = [name for name in names if name in READER_MODELS]
    right = answers(checker, trial)
    return [name for name in names if answers(MODELS[name], trial) != right]


def truth_noticed(text: bytes) -> list[str]:
    """The mutants of truth that differ somewhere from what finish fills."""
    job = checker.parse(text)
    _, table = checker.finish(text, bytes([checker.EMPTY]) * job.size())
    states, formulas = range(job.sizes.states), range(job.sizes.formulas)
    holds = [
        {s for s in states if table[checker.owners_cell(job, s, k)] == checker.TRUE}
        for k in formulas
    ]
    return [name for name, model in TRUTH_MODELS.items() if model.truths(job) != holds]


def rule_answer(model: types.ModuleType, text: bytes, buffer: bytes) -> object:
    """All that the model says of a rule text."""
    try:
        return model.rule(text, buffer)
    except Exception as wrong:  # a mutant may run into a wall
        return repr(wrong)


def rule_noticed(text: bytes, buffer: bytes) -> list[str]:
    """The mutants that answer a rule text otherwise than the model."""
    right = rule_answer(rules, text, buffer)
    return [
        name
        for name, model in RULE_MODELS.items()
        if rule_answer(model, text, buffer) != right
    ]


def page_answer(model: types.ModuleType, case: page_cases.PageCase) -> object:
    """All that the model says of a page, and the buffer afterwards."""
    try:
        return model.lent(*case)
    except Exception as wrong:  # a mutant may run into a wall
        return repr(wrong)


def page_noticed(case: page_cases.PageCase) -> list[str]:
    """The mutants that write another page than the model, or answer otherwise."""
    right = page_answer(pages, case)
    models = PAGE_MODELS | ASKED_MODELS
    return [name for name, model in models.items() if page_answer(model, case) != right]


def program_output(model: types.ModuleType, case: outside.Case) -> object:
    """All that the program prints, as the model says."""
    try:
        return model.printed(case.text, *case.arguments)
    except Exception as wrong:  # a mutant may run into a wall
        return repr(wrong)


def program_noticed(case: outside.Case) -> list[str]:
    """The mutants that print otherwise than the model."""
    right = program_output(pages, case)
    return [
        name
        for name, model in PROGRAM_MODELS.items()
        if program_output(model, case) != right
    ]


def tally(names: Iterable[str], lists: Iterable[list[str]]) -> dict[str, int]:
    """How many of the lists have each name."""
    found = dict.fromkeys(names, 0)
    for name in itertools.chain.from_iterable(lists):
        found[name] += 1
    return found


def counts(drawn: list[trials.Trial]) -> dict[str, int]:
    """How many of the cases notice each mutant."""
    return tally(MODELS, (noticed(trial, MODELS) for trial in drawn))


def truth_counts(texts: Iterable[bytes]) -> dict[str, int]:
    """How many of the jobs notice each mutant of truth."""
    return tally(TRUTH_MODELS, map(truth_noticed, texts))


def rule_counts(cases: Iterable[tuple[bytes, bytes]]) -> dict[str, int]:
    """How many of the rule texts, with their buffers, notice each mutant."""
    return tally(RULE_MODELS, (rule_noticed(*case) for case in cases))


def page_counts(cases: Iterable[page_cases.PageCase]) -> dict[str, int]:
    """How many of the pages notice each mutant, those of page's questions too."""
    return tally(PAGE_MODELS | ASKED_MODELS, map(page_noticed, cases))


def program_counts(cases: Iterable[outside.Case]) -> dict[str, int]:
    """How many of the runs notice each mutant of the program."""
    return tally(PROGRAM_MODELS, map(program_noticed, cases))


def show(what: str, found: dict[str, int], cases: int) -> int:
    """Print how many cases notice each mutant; how many mutants none does."""
    for name, times in found.items():
        print(f"{times:5} {name}")
    unnoticed = sum(times == 0 for times in found.values())
    told = f"{len(found)} wrong readings of {what}"
    print(f"{told}, {unnoticed} unnoticed by {cases} cases")
    return unnoticed


def show_pages(cases: list[page_cases.PageCase]) -> int:
    """The same of pages.  The mutants of page's questions are shown with the calls';
    here only how many the pages leave unnoticed."""
    found = page_counts(cases)
    again = [found.pop(name) for name in ASKED_MODELS]
    unnoticed = show("pages", found, len(cases))
    print(f"(those of page's questions: {again.count(0)} unnoticed by these cases)")
    return unnoticed + again.count(0)


def main() -> int:
    """The program."""
    import page_cases
    import page_outside
    import rule_texts
    import trials

    options = argparse.ArgumentParser(description=__doc__)
    options.add_argument("--seed", type=int, default=trials.SEED)
    options.add_argument("--count", type=int, default=trials.COUNT)
    chosen = options.parse_args()
    drawn = trials.trials(chosen.seed, chosen.count)
    texts = list(rule_texts.chosen())
    runs = list(page_outside.all_cases(page_outside.SEED, page_outside.COUNT))
    unnoticed = show("the calls", counts(drawn), len(drawn))
    rng = random.Random(chosen.seed)
    jobs = [generate.picture(rng) for _ in range(chosen.count)]
    jobs += [generate.tangled(rng, 6, 8, 4) for _ in range(chosen.count)]
    unnoticed += show("truth", truth_counts(job.text() for job in jobs), len(jobs))
    unnoticed += show("rule text", rule_counts(texts), len(texts))
    unnoticed += show_pages(page_cases.chosen())
    unnoticed += show("the program page", program_counts(runs), len(runs))
    return 1 if unnoticed else 0


if __name__ == "__main__":
    sys.exit(main())
