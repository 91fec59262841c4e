"""The options of the tools: what the help, the manual pages and the completion say of them is their declaration; and
command lines with options in any place."""
import os
import re
import subprocess

from cases import case
from irig_tools import damage_program, demodulate_program, join_program, mend_program, what_program, wire_program
from irig_tools.ending import Usage

PROGRAMS = (damage_program, demodulate_program, join_program, mend_program, what_program, wire_program)


def manual_of(top, name):
    with open(os.path.join(top, "docs", name + ".1"), encoding="utf-8") as file:
        return file.read().replace("\\-", "-")


def section(manual, title):
    return manual.partition(".SH " + title)[2].partition("\n.SH ")[0]


def completed(top, *words):
    """What the completion offers for the last word."""
    code = """. "$0/completions/irig_ed"; COMP_WORDS=("$@"); COMP_CWORD=$(($# - 1)); COMPREPLY=(); _irig_ed "$1"
              printf '%s\\n' "${COMPREPLY[@]}" """
    path = os.path.join(top, "tools") + ":" + os.environ["PATH"]
    done = subprocess.run(["bash", "-c", code, top, *words], env=dict(os.environ, PATH=path), check=False,
                          stdin=subprocess.DEVNULL, stdout=subprocess.PIPE, text=True)
    return set(done.stdout.split())


def described(top, command):
    """Whether the help, the manual page and the completion have just the options that are declared."""
    options = command.all_options()
    names = {option.name for option in options}
    manual = manual_of(top, command.name)
    synopsis = dict(re.findall(r"^\.OP (--[a-z-]+) ?(.*)$", section(manual, "SYNOPSIS"), re.M))
    told = set(re.findall(r"--[a-z][a-z-]*", "\n".join(re.findall(r"^\.B.*", section(manual, "OPTIONS"), re.M))))
    shown = dict(re.findall(r"^  (?:-h, )?(--[a-z-]+)(?: (\S+))?(?:  |$)", command.help(), re.M))
    wanted = {option.name: option.value for option in options}
    values = {option.name: set(option.choices) for option in options if option.choices}
    offered = {name: completed(top, command.name, name, "") for name in values}
    differ = [
        what for what, same in (
            ("the help", shown == wanted),
            ("the synopsis", synopsis == {name: wanted[name] for name in names - {"--help", "--version"}}),
            ("the manual page's options", told == names),
            ("the completion", completed(top, command.name, "--") == names),
            ("the completion of values", all(found >= values[name] for name, found in offered.items())),
        ) if not same]
    if differ:
        print("FAILED the options of %s differ in: %s" % (command.name, ", ".join(differ)))
    return not differ


# program, words, operands and options that are given, or what is complained of
LINES = (
    (wire_program, "a.vcd", ["a.vcd"], {}),
    (wire_program, "a.vcd --invert b", ["a.vcd", "b"], {"--invert": True}),
    (wire_program, "--from=3 a.vcd --to 5 b", ["a.vcd", "b"], {"--from": 3, "--to": 5}),
    (wire_program, "a.vcd -- --invert", ["a.vcd", "--invert"], {}),
    (wire_program, "-- - -h", ["-", "-h"], {}),
    (wire_program, "-", ["-"], {}),
    (wire_program, "a.vcd --to 5 --to 6", ["a.vcd"], {"--to": 6}),
    (wire_program, "a.vcd --timescale=-", ["a.vcd"], {"--timescale": "-"}),
    (wire_program, "--help --version a b c d", ["a", "b", "c", "d"], {"--help": True, "--version": True}),
    (damage_program, "a.vcd --expression 4", ["a.vcd"], {"--expression": "4"}),
    (damage_program, "--wire=- a.vcd --format E", ["a.vcd"], {"--wire": "-", "--format": "E"}),
    (damage_program, "-h", [], {"--help": True}),
    (mend_program, "a.vcd --steady --page p --out o", ["a.vcd"], {"--steady": True, "--page": "p", "--out": "o"}),
    (demodulate_program, "--raw s16 a --rate 8", ["a"], {"--raw": "s16", "--rate": 8}),
    (wire_program, "", "no DUMP is given", None),
    (damage_program, "--format B", "no TRACK is given", None),
    (damage_program, "a b", "'b' is one too many; the operands are TRACK", None),
    (wire_program, "a b c", "'c' is one too many; the operands are DUMP [WIRE]", None),
    (wire_program, "-x a", "'-x' is no option", None),
    (wire_program, "--inv a", "'--inv' is no option", None),
    (wire_program, "a --what=3", "'--what' is no option", None),
    (wire_program, "a --dump", "--dump needs a value: --dump N", None),
    (wire_program, "a --out", "--out needs a file: --out FILE", None),
    (wire_program, "a --out=", "--out needs a file: --out FILE", None),
    (wire_program, "a --into=", "--into needs a file: --into ORIGINAL", None),
    (wire_program, "a --out=--", "--out needs a value", None),
    (wire_program, "a --timescale=", "--timescale needs a value: --timescale UNIT", None),
    (damage_program, "a --wire=", "--wire needs a value: --wire NAME", None),
    (demodulate_program, "a --table --column=", "--column needs a value: --column NAME", None),
    (wire_program, "a --invert=1", "--invert has no value", None),
    (wire_program, "a --dump 0", "--dump needs a whole number, at least 1, not '0'", None),
    (wire_program, "a --from -5", "--from needs a whole number, at least 0, not '-5'", None),
    (wire_program, "a --from \u0663", "--from needs a whole number, at least 0, not '\u0663'", None),
    (demodulate_program, "a --level --threshold 0.5", ["a"], {"--level": True, "--threshold": 0.5}),
    (demodulate_program, "a --level --threshold=.5", ["a"], {"--level": True, "--threshold": 0.5}),
    (demodulate_program, "a --threshold 1_0", "--threshold needs a number, at least 0, not '1_0'", None),
    (damage_program, "a --format C", "--format is A, B, E or G, not 'C'", None),
    (mend_program, "a --expression 8", "--expression is 0, 1, 2, 3, 4, 5, 6 or 7, not '8'", None),
    (demodulate_program, "a --raw s17", "--raw is u8, s8, s16, s24, s32, f32, f64, s16be, s24be, s32be, f32be, f64be or text, "
     "not 's17'", None),
)


def parted(program, line, wanted, values):
    """Whether a command line is taken apart in this way, or refused in these words."""
    try:
        given = program.COMMAND.parse(line.split())
        found = given.names, {name: value for name, value in given.values.items() if value not in (None, False)}
    except Usage as error:
        found = str(error), None
    if found != (wanted, values):
        print("FAILED %s %s: %s" % (program.COMMAND.name, line, found))
    return found == (wanted, values)


# what Python takes as a number, and what is near to one
NO_NUMBERS = ("1_0", " 10", "10 ", "+1", "-1", "1e3", "\u0663", "\u00b2", "0x10", "inf", "nan", "1,5", ".", "", "1" * 99)


def plain_digits(program):
    """Each option with a number takes digits, and no other form."""
    for option in program.COMMAND.options:
        for word in NO_NUMBERS if option.value in ("N", "TIME", "HERTZ") else ():
            try:
                found = program.COMMAND.parse(["a", "%s=%s" % (option.name, word)]).values
            except Usage as error:
                found = str(error)
            good = found in ("%s needs a %snumber, at least %d, not '%s'" % (option.name, kind, least, word)
                             for kind in ("", "whole ") for least in (0, 1))
            good or print("FAILED %s %s=%s: %s" % (program.COMMAND.name, option.name, word, found))
            yield good


def empty():
    """An operand that is empty is none; a wire can be called by nothing, and then none is found."""
    for program, names, said in ((wire_program, [""], "no DUMP is given"), (damage_program, [""], "no TRACK is given"),
                                 (wire_program, ["a", ""], "")):
        try:
            found = program.COMMAND.parse(names).names
        except Usage as error:
            found = str(error)
        found == (said or names) or print("FAILED %s %s: %s" % (program.COMMAND.name, names, found))
        yield found == (said or names)


def cases(top):
    """Each row by its name."""
    return [*(case("options: pages of " + program.COMMAND.name, described, top, program.COMMAND) for program in PROGRAMS),
            case("options: an empty operand", empty),
            *(case("options: numbers of " + program.COMMAND.name, plain_digits, program)
              for program in (wire_program, demodulate_program, damage_program)),
            *(case("options: %s %s" % (line[0].COMMAND.name, line[1]), parted, *line) for line in LINES)]
