"""Random sources, their machines' numbers of states beside those of the original.

  states.py RAGEL COUNT SEED

RAGEL is the program of this repository; the original is the `ragel` on the PATH. Each source is an expression of literals, sets and the operators that both have,
with actions in half of them. The two numbers of states, Error left out, have to be the same. Sources of which the original warns, that a repetition's operand has
the empty word, are left out: it then takes other texts than the expression says. The status is 1 where two numbers differ."""
import os
import random
import re
import subprocess
import sys
import tempfile

LEAVES = ["'a'", "'b'", "'ab'", "'ba'", "[ab]", "any", "''", "'abc'", "[a-c]"]
UNARY = ["*", "+", "?", "{2}", "{1,2}"]
BINARY = [" | ", " . ", " & ", " - "]
EMBEDDINGS = [" >A", " $A", " @A", " %A", " >B", " @B"]


def expression(depth, actions):
    """An expression whose operators stand this deep in one another at most."""
    if depth == 0 or random.random() < 0.2:
        return random.choice(LEAVES)
    roll = random.random()
    if roll < 0.55:
        return "( %s%s%s )" % (expression(depth - 1, actions), random.choice(BINARY), expression(depth - 1, actions))
    if roll < 0.8 or not actions:
        return "( %s )%s" % (expression(depth - 1, actions), random.choice(UNARY))
    return "( %s%s )" % (expression(depth - 1, actions), random.choice(EMBEDDINGS))


def run(words, folder):
    """Whether a program ends well and is silent."""
    ended = subprocess.run(words, cwd=folder, capture_output=True, timeout=20)
    return ended.returncode == 0 and not ended.stderr


def ours(ragel, folder):
    """How many states but Error the printed tables have."""
    if not run([ragel, "-o", "ours.c", "m.rl"], folder):
        return None
    text = open(os.path.join(folder, "ours.c")).read()
    return text.split("_m_key_offsets[] = {")[1].split("}")[0].count(",")


def originals(folder):
    """How many states but the error state the original's machine has."""
    if not run(["ragel", "-x", "-o", "m.xml", "m.rl"], folder):
        return None
    text = open(os.path.join(folder, "m.xml")).read()
    states = int(re.search(r'state_list length="(\d+)"', text).group(1))
    return states - ("<error_state>" in text)


def main():
    ragel, count, seed = sys.argv[1], int(sys.argv[2]), int(sys.argv[3])
    random.seed(seed)
    same = left = other = 0
    with tempfile.TemporaryDirectory() as folder:
        for number in range(count):
            source = "%%%%{ machine m; action A { a(); } action B { b(); } main := %s; write data; }%%%%\n" % expression(3, number % 2 == 1)
            with open(os.path.join(folder, "m.rl"), "w") as file:
                file.write(source)
            mine, theirs = ours(ragel, folder), originals(folder)
            if mine is None or theirs is None:
                left += 1
            elif mine == theirs:
                same += 1
            else:
                other += 1
                print("states: %d here, %d in the original: %s" % (mine, theirs, source.strip()))
    print("states: %d machines have as many states as the original's, %d have not, %d are left out" % (same, other, left))
    sys.exit(other > 0)


main()
