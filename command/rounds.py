"""Observation in rounds for the trainer: a line for each round of the rounds report, and a refusal in words too."""
import re

from command import programs
from command.reading import read_text
from command.reporting import one_case, refuse
from command.speaking import Stop, show, show_text

ROUND = re.compile(r"round\t([1-9][0-9]*)((?:\t[1-9][0-9]*)+)")
NO_ROUNDS = "no rounds: no unit observes a bus\n"


def main(arguments):
    """Prints the rounds. Answers 0, or 1 after a refusal."""
    text, said = read_text(one_case("rounds", arguments))
    reply = programs.ask("rounds", programs.words_of("rounds"), text)
    if programs.refusal(reply):
        show(reply)
        return refuse(reply, said, text)
    return show_text(listed(read_report(reply)))


def read_report(reply):
    """The rounds that a whole rounds report says, each as its buses. A reply of another form stops the command."""
    found = [ROUND.fullmatch(line) for line in reply.decode("utf-8", "replace").split("\n")[:-2]]
    if [row and row[1] for row in found] != [str(place) for place in range(1, len(found) + 1)]:
        raise Stop("the program 'rounds' gave a reply that is not a list of rounds")
    return [row[2].split() for row in found]


def listed(rounds):
    """The rounds for people, a line for each."""
    return "".join("round %d: %s\n" % (place, " ".join(buses)) for place, buses in enumerate(rounds, 1)) or NO_ROUNDS
