"""Compares the instructions that a Forth source runs, each in the state in which it stands."""


class ProgramError(Exception):
    """A program ends before its end."""


def run_program(model, compare, machine, source):
    """Runs a source on the model's machine, and compares each word, the machine and the token before it runs."""
    for number, line in enumerate(model.machine.split_lines(source), 1):
        machine.give_line(line)
        try:
            while machine.wait is None and not machine.halted:
                compare(*next_instruction(model, machine))
                machine.step()
        except (model.Throw, model.Refused) as fault:
            raise ProgramError(f"line {number} of the program: {type(fault).__name__} {fault}") from None


def next_instruction(model, machine):
    """The word whose instruction comes next, the machine in which its token runs, and the token."""
    state = machine.clone()
    if state.due is None:
        token = state.fetch(state.ip)
        state.ip = state.a.add(state.ip, 8)
    else:
        token, state.due = state.due, None
    return model.words[state.a.tag(state.fetch(token))], state, token
