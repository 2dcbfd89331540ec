#!/usr/bin/env python3
"""Compares the machine, as it is defined, with a slow model of it.

The actions of words and the other parts of the machine run on random states; the tables and texts are compared as they
are, and with --whole whole builds and runs are.
"""

import argparse
import sys
import threading
from concurrent.futures import ThreadPoolExecutor
from pathlib import Path
from random import Random

from actions import defined_actions
from comparison import Comparison, Trial
from model import Model
from parts import INSTRUCTION, Parts
from programs import ProgramError, run_program
from reader import Modules
from states import REGION_BYTES, RandomState
from texts import compare_texts
from whole import compare_whole

REPOSITORY = Path(__file__).resolve().parents[2]
RECURSION_LIMIT = 1_000_000
STACK_BYTES = 2**29
PARTS_SHARE = 4  # how many states the words have for each one that a part has


def word_trial(model, action, word, machine, token):
    """The trial of a word's action, in which the token runs."""
    return Trial(word, machine, lambda copy: model.instruction(copy, word, token), action.value, [token])


def run_words(comparison, actions, seeds, rounds, random):
    """Compares the actions on so many random states; the words take turns, and after each turn of all, the seeds."""
    words = list(actions)
    for index in range(rounds):
        word = words[index % len(words)]
        seed = seeds[index // len(words) % len(seeds)]
        state = RandomState(comparison.model, seed, random, word)
        comparison.compare(word_trial(comparison.model, actions[word], word, state.machine, state.token))


def run_parts(comparison, parts, seeds, rounds, random):
    """Compares the other parts of the machine on so many random states, half of them instructions."""
    others = [name for name in parts.makers if name != INSTRUCTION]
    for index in range(rounds):
        name = INSTRUCTION if index % 2 else others[index // 2 % len(others)]
        seed = seeds[index // 2 // len(others) % len(seeds)]
        comparison.compare(parts.trial(name, seed, random))


def run_source(comparison, actions, arithmetics, path):
    """Compares the actions of the instructions that a source runs."""
    model = comparison.model

    def compare(word, machine, token):
        if word in actions:
            comparison.compare(word_trial(model, actions[word], word, machine, token))

    for name in arithmetics:
        try:
            run_program(model, compare, model.kernel(name, REGION_BYTES), path.read_bytes())
        except ProgramError as error:
            sys.exit(str(error))


def chosen_words(arguments, model):
    """The words that the arguments name, by their names or their tags; all where there is none."""
    words = []
    for argument in arguments:
        if argument in model.words:
            words.append(argument)
        elif argument.isdigit() and int(argument) < len(model.words):
            words.append(model.words[int(argument)])
        else:
            sys.exit(f"{argument} is no word and no tag")
    return words or model.words


def parsed_arguments():
    """The arguments of the command, with folders that are there."""
    parser = argparse.ArgumentParser(description=__doc__.splitlines()[0])
    parser.add_argument("words", nargs="*", help="words or tags to try alone; else all, and what isn't a word")
    parser.add_argument("--specs", type=Path, default=REPOSITORY / "crates/mi_model/specs", help="the definitions")
    parser.add_argument("--model", type=Path, default=REPOSITORY.parent / "shared/oracle", help="the slow model")
    parser.add_argument("--arithmetic", choices=["plain", "origin"], help="only this one; both where it isn't given")
    parser.add_argument("--rounds", type=int, default=3000, help="how many random states the words have")
    parser.add_argument("--seed", type=int, default=1, help="the seed of the random states")
    parser.add_argument("--program", type=Path, help="a Forth source whose instructions are tried too")
    parser.add_argument("--whole", action="store_true", help="compare whole builds and runs too")
    arguments = parser.parse_args()
    if not arguments.specs.is_dir():
        parser.error(f"no folder {arguments.specs}")
    if not (arguments.model / "machine.py").is_file():
        parser.error(f"no model in {arguments.model}")
    return arguments


def compare_all(arguments):
    """Gives the exit status: 0 where every action was found and nothing differs."""
    model = Model(arguments.model)
    modules = Modules(arguments.specs)
    words = chosen_words(arguments.words, model)
    actions = defined_actions(modules, words)
    missing = [word for word in words if word not in actions]
    print(f"{len(actions)} actions found" + (f", missing: {' '.join(missing)}" if missing else ""))
    comparison = Comparison(model, actions)
    random = Random(arguments.seed)
    arithmetics = [arguments.arithmetic] if arguments.arithmetic else ["plain", "origin"]
    seeds = [model.seed(name, REGION_BYTES) for name in arithmetics]
    if actions:
        run_words(comparison, actions, seeds, arguments.rounds, random)
    if not arguments.words:
        run_parts(comparison, Parts(model, modules), seeds, arguments.rounds // PARTS_SHARE, random)
        compare_texts(comparison, modules, arithmetics)
    if arguments.whole:
        compare_whole(comparison, Modules(arguments.specs))
    if arguments.program:
        run_source(comparison, actions, arithmetics, arguments.program)
    comparison.report()
    return 1 if missing or comparison.differences else 0


def main():
    """Compares in a thread whose stack is large enough for deep evaluations, and ends with the status."""
    arguments = parsed_arguments()
    sys.setrecursionlimit(RECURSION_LIMIT)
    threading.stack_size(STACK_BYTES)
    with ThreadPoolExecutor(1) as threads:
        status = threads.submit(compare_all, arguments).result()
    sys.exit(status)


if __name__ == "__main__":
    main()
