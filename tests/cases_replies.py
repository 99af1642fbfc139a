"""The replies of day and plan on every case, from files and from standard input, and calls that are wrong."""
import glob
import os

from cases_support import TOP, stored
from command import calling
from command.speaking import Misused

SEVEN = os.path.join(TOP, "cases", "seven.case")
BARE = os.path.join(TOP, "cases", "seven-bare.case")
TOO_SMALL = b"refused\t11\t0\n"


def check_stored(checks):
    """Every case has the stored replies. A report ends with 0, a refusal with 1."""
    for case in sorted(glob.glob(os.path.join(TOP, "cases", "*.case"))):
        name = case[:-len(".case")]
        for reply in [name + ".day"] + sorted(glob.glob(name + ".plan*")):
            words = reply[len(name) + 1:].split(".")
            called = checks.call(*words, case)
            wanted = stored(reply)
            status = 1 if wanted.startswith(b"refused") else 0
            checks.that("%s %s" % (" ".join(words), case), (called.status, called.out) == (status, wanted), called)
            checks.that("words of %s %s" % (" ".join(words), case), called.err.count(b"\n") == status, called)


def check_standard_input(checks):
    """The case comes from standard input for '-' and for nothing, from any folder."""
    for arguments, case, reply in [
        (["day", "-"], "seven", "seven.day"), (["day"], "seven", "seven.day"),
        (["plan"], "seven-bare", "seven-bare.plan"), (["plan", "2", "-"], "seven-bare", "seven-bare.plan.2"),
        (["plan", "0"], "seven-covered", "seven-covered.plan"),
    ]:
        called = checks.call(*arguments, text=stored("cases", case + ".case"), cwd="/")
        checks.that(" ".join(arguments), called == (0, stored("cases", reply), b""), called)
    with open(SEVEN, "rb") as file:
        called = checks.call("day", stdin=file, cwd="/")
    checks.that("day from a file as standard input", called == (0, stored("cases", "seven.day"), b""), called)


def check_budgets(checks):
    """Budgets that are not 0 to 8, and one that is too small."""
    for budget in ("9", "9999"):
        called = checks.call("plan", budget, SEVEN)
        checks.refuses("plan " + budget, called, b"refused\t10\t1\n", "the budget is above 8: it is " + budget)
    for budget, words in (("00", "has a leading zero"), ("10000", "has over 4 digits"), ("0008", "'0008' has")):
        called = checks.call("plan", budget, SEVEN)
        checks.refuses("plan " + budget, called, b"refused\t2\t1\n", "a budget is a number of 0 to 8: ", words)
    called = checks.call("plan", "1", BARE)
    checks.refuses("no cover", called, TOO_SMALL, "no addition within the budget, 1 unit at most")
    called = checks.call("plan", "8", os.path.join(TOP, "cases", "ieee57.case"))
    checks.refuses("no cover of 8", called, TOO_SMALL, "budget, 8 units at most, makes every bus observed\n")


def check_default(checks):
    """`plan` alone means 3. If that is too small, what is said has the budget and how to ask for more."""
    more = "; the budget was 3, since none was given: 'wozgrzyt plan 8' asks for up to 8 units\n"
    for name in ("ieee30", "source000-fig4", "source000-theorem34"):
        case = os.path.join(TOP, "cases", name + ".case")
        called, words = checks.call("plan", case), case + ": no addition within the budget, 3 units at most"
        checks.refuses(name, called, TOO_SMALL, words, more)
        called, words = checks.call("plan", "3", case), "3 units at most, makes every bus observed\n"
        checks.refuses(name + ", asked for 3", called, TOO_SMALL, words)
    called = checks.call("plan", "-", text=stored("cases", "ieee30.case"))
    checks.refuses("ieee30, from standard input", called, TOO_SMALL, more)
    # any other refusal says nothing of the budget
    called = checks.call("plan", text=b"grid\t0\n")
    checks.that("no budget and a bad case", called.status == 1 and b"budget" not in called.err, called)


def check_former_default(checks):
    """What `plan` alone replied while it meant 8, `plan 8` replies: `plan` alone says the same, or refusal 11."""
    for case in sorted(glob.glob(os.path.join(TOP, "cases", "*.case"))):
        reply, former = case[:-len(".case")] + ".plan", case[:-len(".case")] + ".plan.8"
        if os.path.exists(former):
            checks.that("%s is refusal 11" % reply, stored(reply) == TOO_SMALL)
        else:
            called = checks.call("plan", "8", case)
            checks.that("plan 8 %s" % case, called.out == stored(reply), called)


# Wrong calls, and what is said of them.
WRONG = [
    (["week"], "there is no 'week'"), (["week\nday"], "there is no 'week\\nday'"), ([""], "there is no ''"),
    (["week", "--help"], "there is no 'week'"), (["plan", "x", SEVEN], "'plan' takes a budget, which is a number"),
    (["plan", "-1", SEVEN], "'plan' takes a budget"), (["plan", "2", SEVEN, SEVEN], "'plan' takes a budget"),
    (["day", SEVEN, SEVEN], "'day' takes one case"), (["day", "--quick"], "'day' has no option '--quick'"),
    (["rounds", SEVEN, SEVEN], "'rounds' takes one case"), (["rounds", "--quick"], "'rounds' has no option '--quick'"),
    (["map", "--png", SEVEN], "'map' has no option '--png'"), (["map", SEVEN, "--svg"], "'map' takes one of"),
    (["map", "--svg", "--dot", SEVEN], "'map' takes one of"), (["map", SEVEN, SEVEN], "'map' takes one case"),
    (["tidy", SEVEN, SEVEN], "'tidy' takes one case"), (["tidy", "-q"], "'tidy' has no option '-q'"),
    (["refusal", "14"], "there is no refusal '14'"), (["refusal", "03"], "there is no refusal '03'"),
    (["refusal", "1", "2"], "'refusal' takes one number"), (["help", "week"], "there is no help on 'week'"),
    (["help", "day", "plan"], "'help' takes one word"), (["--version", "day"], "'--version' takes nothing"),
]


def check_wrong_calls(checks):
    """Each wrong call says in one line what is wrong, and prints nothing."""
    for arguments, words in WRONG:
        try:
            said = calling.call(arguments)
        except Misused as misused:
            said = str(misused)
        checks.that("wozgrzyt %s: %s" % (" ".join(arguments), said), str(said).startswith(words))
    for arguments, words in WRONG[1::4]:
        checks.stops("wozgrzyt " + " ".join(arguments), checks.call(*arguments), words, "; 'wozgrzyt help' says how")
    checks.stops("a budget of another script", checks.call("plan", "\u00b2"), "there is no file '\u00b2'")


CHECKS = [
    check_stored, check_standard_input, check_budgets, check_default, check_former_default, check_wrong_calls,
]
