"""Tests that the files of packaging/ complete each option of osi-capture and osi-ladders, and no other."""
import argparse
import os
import re
import unittest

from capture import program as capture
from ladders import program as ladders

PACKAGING = os.path.join(os.path.dirname(os.path.abspath(__file__)), "..", "..", "packaging")
PARSERS = {"osi-capture": capture.words, "osi-ladders": ladders.words}


def long_options(parser):
    """The long options of a program, those of its subcommands included."""
    found = set()
    for action in parser._actions:
        found.update(option for option in action.option_strings if option.startswith("--"))
        if isinstance(action, argparse._SubParsersAction):
            for job in action.choices.values():
                found |= long_options(job)
    return found


def read(name):
    """The text of a file of packaging/."""
    with open(os.path.join(PACKAGING, name), encoding="utf-8") as file:
        return file.read()


def zsh_part(program):
    """The part of zsh's function that is for this program."""
    return re.search(rf"^  {program}\)\n(.*?);;$", read("_osi"), re.M | re.S)[1]


class Completion(unittest.TestCase):
    def completed(self, program, found):
        self.assertEqual(long_options(PARSERS[program]()), found | {"--help"})

    def test_bash(self):
        for program in PARSERS:
            with self.subTest(program):
                lists = re.findall(r"(?:options=|-W )'?([^'\n]*)", read(f"{program}.bash"))
                self.completed(program, set(re.findall(r"--[a-z]+(?:-[a-z]+)*", " ".join(lists))))

    def test_fish(self):
        for program in PARSERS:
            with self.subTest(program):
                self.completed(program, {f"--{name}" for name in re.findall(r" -l ([a-z]+(?:-[a-z]+)*)", read(f"{program}.fish"))})

    def test_zsh(self):
        for program in PARSERS:
            with self.subTest(program):
                part = re.sub(r"\[[^]]*\]", "", zsh_part(program))
                self.completed(program, set(re.findall(r"--[a-z]+(?:-[a-z]+)*", part)))


if __name__ == "__main__":
    unittest.main()
