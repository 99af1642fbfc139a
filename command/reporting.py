"""The day report and the planning program: their replies to the byte, and a refusal in words too."""
from command import programs
from command.explaining import explain
from command.reading import read_text
from command.speaking import Misused, named, say, show


def one_case(word, arguments):
    """The case that the arguments name: none or one, which is no option."""
    for argument in arguments:
        if argument.startswith("-") and argument != "-":
            raise Misused("'%s' has no option '%s'" % (word, named(argument)))
    if len(arguments) > 1:
        raise Misused("'%s' takes one case" % word)
    return arguments[0] if arguments else "-"


def day(arguments):
    """Prints the day report. Answers 0, or 1 after a refusal."""
    return report("day", one_case("day", arguments))


def plan(arguments):
    """Prints the planning program's reply. Answers 0, or 1 after a refusal."""
    line = b"plan\n"
    if arguments and arguments[0].isascii() and arguments[0].isdigit():
        line = b"plan\t%s\n" % arguments[0].encode()
        arguments = arguments[1:]
    if len(arguments) > 1:
        raise Misused("'plan' takes a budget, which is a number, and one case")
    return report("plan", one_case("plan", arguments), line)


def report(program, name, plan_line=b""):
    """Prints a program's reply to the case, and a refusal in words. Answers 0, or 1 after a refusal."""
    text, said = read_text(name)
    reply = programs.ask(program, programs.words_of(program), plan_line + text, bool(plan_line))
    show(reply)
    return refuse(reply, said, text, plan_line)


def refuse(reply, said, text, plan_line=b""):
    """Says in words what a reply refuses. Answers 1, or 0 if it refuses nothing."""
    refused = programs.refusal(reply)
    if refused is None:
        return 0
    say("%s: %s" % (said, explain(*refused, text, plan_line)))
    return 1
