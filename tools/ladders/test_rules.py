"""Tests of the rules and their clauses: each rule that the sources have has a sentence, with what is known of its packet."""
import os
import re
import unittest

from . import packets, rules, script, verdicts

CRATES = os.path.join(script.TOP, "crates")
# Where the names of the rules come from: a file and an enumeration in it, and what was sent when each may be told.
SOURCES = (("osi_rules/src/findings.rt", "Rule", "CC"), ("osi_session/src/faults.rt", "CallError", "Data"),
           ("osi_session/src/breaches.rt", "Breach", "Accept"), ("osi_spdu/src/faults.rt", None, "TSDU"),
           ("osi_tpdu/src/faults.rt", None, "TPDU"), ("osi_tpkt/src/faults.rt", None, "TPKT"))
# What is no rule of a side.
NONE = {"OutOfMemory", "Call", "BadSize", "NoSuchConnection"}


def names_of(file, enumeration):
    """The variants of an enumeration of a file, or of all of them."""
    with open(os.path.join(CRATES, file), encoding="utf-8") as source:
        text = source.read()
    found = re.findall(r"pub enum (\w+)[^{]*\{(.*?)^\}", text, re.S | re.M)
    return {name for what, body in found if enumeration in (None, what) for name in re.findall(r"^    ([A-Z]\w+)\b", body, re.M)}


def told(what, rule, more=""):
    """What `osi judge` prints of a break by left."""
    return verdicts.read(f"left 1 broke packet 41 {what} {rule}\n{more}left broke the protocol first, packet 41: {what} {rule}\n")[0]


def rules_of_the_library():
    """The rules for which the library may say that a side broke the protocol or left the profile, in the words of `osi judge`."""
    with open(os.path.join(script.TOP, "bindings", "python", "src", "osi_session", "_codes.py"), encoding="utf-8") as codes:
        body = codes.read().partition("class Rule(IntEnum):")[2].partition("\nclass ")[0]
    found = re.findall(r'^    ([A-Z_]+) = \d+(?:\n    """(.*?)""")?', body, re.M | re.S)
    names = {name for name, text in found if not text.startswith("No break")}
    words = {"".join(word.capitalize() for word in name.split("_")) for name in names - {"NONE", "NO_SUCH_CONNECTION"}}
    return {word.replace("Tpdu", "") for word in words}


def clause_in_table(standard, rule, is_of_acknowledgement):
    """The clause of a rule as the page's table has it."""
    if rule in rules.OF_PACKETS:
        return rules.clause_of("TPKT", rule)
    if standard == "X.225":
        own = (rules.OF_SESSIONS | rules.OF_TSDUS).get(rule, ("", ""))[1]
        return rules.quoted(rules.X_225, own) if own else "that on the unit"
    if rule == "TsduTooLong":
        return "none"
    return rules.clause_of("AK" if is_of_acknowledgement else "DC" if rule == "NothingToAnswer" else "DT", rule).removeprefix("X.224, ")


class Rules(unittest.TestCase):
    """Every rule has a sentence and a clause."""

    def test_none_falls_through(self):
        for file, enumeration, what in SOURCES:
            names = names_of(file, enumeration) - NONE
            self.assertTrue(names, file)
            for rule in names:
                self.assertIsNotNone(rules.text_of(what, rule), rule)
                if rule != "TsduTooLong":
                    self.assertRegex(rules.clause_of(what, rule) or "", r'^(X\.22[45], |RFC 1006, 6 )(.*")?', rule)
                self.assertNotIn("can't be read", verdicts.reason(told(what, rule), "left"))

    def test_every_unit_has_a_clause(self):
        for what in rules.SENT:
            self.assertIsNotNone(rules.clause_of(what, "Outside"), what)

    def test_the_limit_of_this_product_is_named(self):
        """`osi judge` counts it as a break, though X.224 has no such limit."""
        verdict = told("DT", "TsduTooLong")
        self.assertEqual(verdicts.sentence(verdict), "left broke the protocol first, in its packet at octet 41.")
        self.assertEqual(verdicts.reason(verdict, "left"), "It sent a data unit of transport (DT); it makes a TSDU longer than 1,048,576 "
                         "octets, the limit of this product; X.224 has none.")
        self.assertIsNone(rules.clause_of("DT", "TsduTooLong"))

    def test_what_is_a_break_is_what_the_library_calls_one(self):
        """Of every rule of the library: a break is told as one, and what leaves the profile as that, first or later."""
        for rule in rules_of_the_library():
            does, last = ("leaves", "leaves the profile") if rule == "Outside" else ("broke", "broke the protocol")
            for what in ("Data", "DT", "TSDU"):
                for line in (f"left 1 {does} packet 41 {what} {rule}", f"left {does} packet 41 {what} {rule}"):
                    verdict = verdicts.read(f"{line}\nleft {last} first, packet 41: {what} {rule}\n")[0]
                    self.assertEqual(verdicts.is_broken(verdict.break_of("left")), does == "broke", line)
                    self.assertIn(" broke " if does == "broke" else "was the first to leave the profile", verdicts.sentence(verdict))
                    later = verdicts.read(f"{line}\nright broke the protocol first, packet 9: DT NoCredit\n")[0]
                    self.assertEqual(verdicts.is_broken(later.break_of("left")), does == "broke", line)
                    self.assertIn("Later left broke" if does == "broke" else "Later left left the profile too",
                                  " ".join(verdicts.box(later)))

    def test_every_rule_of_the_library_has_a_sentence(self):
        for rule in rules_of_the_library():
            self.assertTrue(any(rules.text_of(what, rule) for what in ("Data", "DT", "TSDU", "TPKT")), rule)

    def test_the_tables_of_the_page_have_the_clauses_of_the_sentences(self):
        with open(os.path.join(script.TOP, "docs", "TOOL.md"), encoding="utf-8") as page:
            text = page.read().partition("### The rules of the session")[2]
        units, session, transport = text.partition("| RULE")[0], *text.split("| RULE")[1:3]
        for name, (long_name, number) in rules.UNITS.items():
            short = re.search(r"\((\w+)\)", long_name)[1]
            self.assertRegex(units, rf'\b{short} {re.escape(rules.quoted(rules.X_225, number))}[,.]', name)
        found = set()
        for table, standard in ((session, "X.225"), (transport, "X.224")):
            for row in re.findall(r"^\| (`.*?) \| .* \| (.*?) \|$", table, re.M):
                for rule in re.findall(r"`(\w+)`", row[0]):
                    found.add((standard, rule))
                    self.assertEqual(row[1], clause_in_table(standard, rule, "of an AK" in row[0]), rule)
        wanted = {("X.225", rule) for rule in (*rules.OF_SESSIONS, *rules.OF_TSDUS, "NothingToAnswer")}
        wanted.remove(("X.225", "NoSuchConnection"))
        wanted |= {("X.224", rule) for rule in (*rules.OF_TRANSPORT, *rules.OF_PACKETS, "NothingToAnswer")} - {("X.224", "TooMany")}
        self.assertEqual(found, wanted)

    def test_a_rule_of_the_future_is_named(self):
        self.assertEqual(verdicts.reason(told("Data", "Unheard"), "left"), "It sent data (DT); `osi judge` calls that Unheard.")


class Details(unittest.TestCase):
    """What the packet says of itself is in the sentence."""

    REQUEST, CONFIRM = "0300000e09e00000000100c0010a", "0300000e09d00001000200c0010b"

    def reason(self, side, what, rule, left, right, offset):
        octets = {"left": bytes.fromhex(left), "right": bytes.fromhex(right)}
        text = f"{side} broke packet {offset} {what} {rule}\n{side} broke the protocol first, packet {offset}: {what} {rule}\n"
        return verdicts.reason(verdicts.read(text)[0], side, None, octets)

    def test_sizes(self):
        data = "0300040a02f080" + "00" * 1027
        said = self.reason("left", "DT", "SizeExceeded", self.REQUEST + data, self.CONFIRM.replace("c0010b", "c0010a"), 14)
        self.assertIn("it has 1,030 octets, and the agreed TPDU size is 1,024 "
                      '(X.224, 13.3.4 "Connection request TPDU, variable part")', said)
        said = self.reason("right", "CC", "LargerSize", self.REQUEST, self.CONFIRM, 0)
        self.assertIn("it selects TPDUs of 2,048 octets, and the connect request offers 1,024 "
                      '(X.224, 13.3.4 "Connection request TPDU, variable part")', said)

    def test_what_is_not_known_is_left_out(self):
        """A watch tells a break by its line alone."""
        for what, rule, wanted in (("DT", "SizeExceeded", "it has more octets than the agreed TPDU size (X.224, 13.3.4"),
                                   ("CC", "LargerSize", "it selects a larger TPDU size than the connect request offers (X.224"),
                                   ("Minor", "BadNumber", "its number is not one that is allowed (X.225"),
                                   ("Data", "BadState", "a session may not send that in the phase that it was in (X.225")):
            self.assertIn(wanted, verdicts.reason(told(what, rule), "left"))

    def test_references(self):
        said = self.reason("right", "CC", "UnknownReference", self.REQUEST, self.CONFIRM.replace("d00001", "d00009"), 0)
        self.assertIn('there is no connection with the reference 0009 (X.224, 6.9 "Association of TPDUs with transport connections")', said)
        said = self.reason("left", "DT", "OutOfSequence", self.REQUEST + "0300000b04f00002850100", self.CONFIRM, 14)
        self.assertIn('its number 5 is not the next one (X.224, 6.10 "Data TPDU numbering")', said)

    def test_faults_of_a_tsdu(self):
        verdict = told("TSDU", "DuplicateParameter", "left 1 fault 14 DuplicateParameter 21\n")
        said = 'It sent a TSDU; a parameter in it occurs twice: octet 14 of the TSDU, parameter 21 (X.225, 8.2 "SPDU structure").'
        self.assertEqual(verdicts.reason(verdict, "left"), said)

    def test_packets_that_are_cut_off(self):
        self.assertEqual(packets.known_of({"left": b"\3\0\0\x07\2", "right": b""}, "left", 0)["octets"], "1")


if __name__ == "__main__":
    unittest.main()
