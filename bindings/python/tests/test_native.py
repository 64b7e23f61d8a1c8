"""The module in C makes the same calls as those over ctypes."""
import inspect
import os
import unittest

from osi_session import Code, End, Judge, JudgedSide, Opening, SessionError, _calls, _library, _verdicts

IN_C = _library.native()


@unittest.skipIf(IN_C is None, "there is no module in C for this Python, or OSI_SESSION_CTYPES is set")
class InC(unittest.TestCase):
    def test_each_call_is_there_with_its_text_and_arguments(self):
        both = [(End, it) for it in vars(_calls.Calls).items()] + [(Judge, it) for it in vars(_verdicts.JudgeCalls).items()]
        for of, (name, method) in both:
            if name.startswith("_") or not callable(method):
                continue
            in_c = getattr(of, name)
            self.assertEqual(type(in_c).__name__, "method_descriptor", name)
            self.assertEqual(in_c.__doc__.split(), inspect.getdoc(method).split(), name)
            self.assertEqual(list(inspect.signature(in_c).parameters), list(inspect.signature(method).parameters), name)

    def test_numbers_that_do_not_fit(self):
        with End.caller() as end:
            reference = end.connect()
            for call in (
                lambda: end.data(-1, b"a"),
                lambda: end.data(65536, b"a"),
                lambda: end.data(1 << 70, b"a"),
                lambda: end.give(reference, 256),
                lambda: end.minor_confirm(reference, 1 << 32),
                lambda: end.taken(-1),
            ):
                with self.assertRaises(SessionError) as raised:
                    call()
                self.assertIs(raised.exception.code, Code.BAD_ARGUMENT)
            self.assertEqual(end.unsent(-1), 0)
            self.assertEqual(end.phase(1 << 70), 0)

    def test_what_is_no_number_or_no_octets(self):
        with End.caller() as end:
            reference = end.connect()
            for call in (
                lambda: end.data("1", b"a"),
                lambda: end.data(reference, "a"),
                lambda: end.data(reference, 5),
                lambda: end.data(reference),
                lambda: end.feed(5),
                lambda: end.taken("1"),
                lambda: end.data(reference, b"a", b"b"),
            ):
                self.assertRaises(TypeError, call)

    def test_an_end_and_a_judge_that_were_not_made(self):
        self.assertRaises(RuntimeError, End.__new__(End).outgoing)
        judge = Judge.__new__(Judge)
        for call in (lambda: judge.feed(JudgedSide.LEFT, b"a"), lambda: list(judge.verdicts()), judge.connections, judge.text):
            self.assertRaises(RuntimeError, call)

    def test_arguments_by_name(self):
        with End.caller() as end:
            reference = end.connect(Opening())
            with self.assertRaises(SessionError) as raised:
                end.data(user_data=bytearray(b"a"), reference=reference)
            self.assertIs(raised.exception.code, Code.BAD_STATE)
            self.assertEqual(len(end.outgoing(most=3)), 3)


class Chosen(unittest.TestCase):
    def test_the_module_is_left_out_if_that_is_asked_for(self):
        self.assertTrue(IN_C is None or not os.environ.get("OSI_SESSION_CTYPES"))


if __name__ == "__main__":
    unittest.main()
