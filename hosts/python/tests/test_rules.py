"""Rules over many records and over JSON lines, and the classes under them: python3 test_rules.py"""

import asyncio
import collections
import copy
import gc
import io
import itertools
import json
import mmap
import os
import pickle
import random
import re
import signal
import sys
import tempfile
import threading
import time
import unittest
import weakref

import exprlang
from exprlang import _core

PRICES = exprlang.Environment(functions={"price": {"pen": 150, "ink": 90}.get})


class Case(unittest.TestCase):
    def error(self, kind, words, call, *arguments, **named):
        """Checks that a call raises an Error of a kind, which says these words."""
        with self.assertRaises(exprlang.Error) as caught:
            call(*arguments, **named)
        self.assertEqual(caught.exception.kind, kind)
        self.assertRegex(str(caught.exception), words)
        return caught.exception


class Rules(Case):
    def test_matches(self):
        rule = exprlang.Rule("price('pen') > least", PRICES)
        self.assertIs(rule.matches({"least": 100}), True)
        self.assertIs(rule.matches(exprlang.Context({"least": 200})), False)
        self.assertIs(rule.matches([("least", 1)]), True)
        self.assertIs(rule.run({"least": 1}), True)
        other = exprlang.Environment(functions={"price": lambda _: 0})
        self.assertIs(rule.run({"least": 1}, other), False)
        self.assertIs(exprlang.Rule("1 > 0").matches(None), True)
        words = "a rule is true or false, but the value here is of the kind"
        for text, kind in [("1", "integer"), ("nil", "nil"), ("'a'", "string"), ("{}", "map")]:
            self.error("evaluation", f"^{words} {kind}$", exprlang.Rule(text).matches, {})
        self.error("evaluation", "hand it in by", exprlang.Rule("f(1)").matches, {"f": len})

    def test_each(self):
        rule = exprlang.Rule("[a, b]", missing="nil")
        records = [{"a": 1, "b": [2]}, {"a": 3}, {}, None, {"b": {"c": 4}}]
        records += [exprlang.Context({"a": 5}), collections.OrderedDict(b=6), [("a", 7)]]
        wanted = [[1, [2]], [3, None], [None, None], [None, None], [None, {"c": 4}]]
        wanted += [[5, None], [None, 6], [7, None]]
        self.assertEqual(rule.each(records), wanted)
        self.assertEqual(rule.each(iter(records)), wanted)
        self.assertEqual(rule.each([]), [])

    def test_a_record_leaves_nothing_for_the_next(self):
        rule = exprlang.Rule("a ?? b")
        error = self.error(
            "evaluation", "record 1: unknown name a", rule.each, [{"a": 1}, {"b": 2}]
        )
        self.assertIs(type(error), exprlang.Error)
        env = exprlang.Rule("keys($env)")
        self.assertEqual(env.each([{"a": 1}, {"b": 2}, {}]), [["a"], ["b"], []])
        self.assertEqual(exprlang.Rule("f() + a", PRICES).names, ["a"])
        counts = exprlang.Rule("a > 1", missing="error")
        for _ in range(3):
            self.assertEqual(counts.filter([{"a": 1}, {"a": 2}]), [{"a": 2}])
            self.error("evaluation", "record 0", counts.filter, [{}])

    def test_filter(self):
        rule = exprlang.Rule("n > 1")
        records = [{"n": n, "other": 1.5} for n in range(4)]
        found = rule.filter(records)
        self.assertIs(found[0], records[2])
        self.assertEqual(found, records[2:])
        self.assertEqual(rule.filter(it for it in records), records[2:])
        self.error(
            "evaluation",
            "^record 2: a rule",
            exprlang.Rule("n").filter,
            [{"n": True}] * 2 + records,
        )

    def test_faults_say_the_record(self):
        rule = exprlang.Rule("a.b > 1")
        with self.assertRaisesRegex(TypeError, r"^record 1: a\.b: the language has no fractions"):
            rule.each([{"a": {"b": 1}}, {"a": {"b": 1.5}}])
        with self.assertRaisesRegex(TypeError, "a context is a dict"):
            rule.each(["a"])
        for wrong in [None, 5, rule]:
            with self.assertRaises(TypeError):
                rule.each(wrong)
        stops = self.error("limit", "^record 0: ", exprlang.Rule("len(1..2000000) > 0").each, [{}])
        self.assertEqual(stops.limit, "steps")

        def fails(what):
            raise exprlang.Error("pattern", "mine")

        host = exprlang.Environment(functions={"f": fails})
        error = self.error(
            "pattern",
            "^record 1: mine$",
            exprlang.Rule("a or f(1)", host).each,
            [{"a": True}, {"a": False}],
        )
        self.assertEqual(str(error.__cause__), "mine")

    def test_functions_over_records(self):
        rule = exprlang.Rule("price(what) > least", PRICES)
        records = [{"what": what, "least": 100} for what in ("pen", "ink", "pen")]
        self.assertEqual(rule.each(records), [True, False, True])
        self.assertEqual(
            rule.lines("\n".join(map(json.dumps, records))), [json.dumps(records[0])] * 2
        )

    def test_a_rule_is_a_program(self):
        rule = exprlang.Rule("price('pen') > a", PRICES, exprlang.Limits(steps=500), "nil")
        self.assertEqual(
            (rule.text, rule.limits.steps, rule.missing), ("price('pen') > a", 500, "nil")
        )
        self.assertEqual((rule.names, rule.functions, rule.uses_env), (["a"], ["price"], False))
        self.assertIs(rule.environment, PRICES)
        for make in [copy.copy, copy.deepcopy]:
            self.assertIs(make(rule).matches({"a": 1}), True)
        other = pickle.loads(pickle.dumps(exprlang.Rule("price('pen') > a", PRICES)))
        self.assertIs(other.matches({"a": 1}), True)
        self.assertEqual(repr(exprlang.Rule("a")), "Rule('a')")
        self.assertIn("environment=Environment(", repr(rule))
        with rule:
            pass
        for call in [rule.matches, rule.each, rule.filter, rule.run]:
            with self.assertRaisesRegex(ValueError, "the program is closed"):
                call([])
        with self.assertRaisesRegex(TypeError, "an environment is an Environment"):
            exprlang.Rule("a", {"f": len})
        with self.assertRaises(exprlang.Syntax):
            exprlang.Rule("a >")


class Lines(Case):
    DATA = '{"n": 1}\n{"n": 2, "x": [1, {"y": null}]}\r\n\n \t\r\n{"n": 3}\n'

    def test_lines(self):
        rule = exprlang.Rule("n > 1")
        wanted = ['{"n": 2, "x": [1, {"y": null}]}\r', '{"n": 3}']
        octets = [it.encode() for it in wanted]
        self.assertEqual(rule.lines(self.DATA), wanted)
        data = self.DATA.encode()
        for it in [data, bytearray(data), memoryview(data), data[:-1]]:
            self.assertEqual(rule.lines(it), octets)
        with tempfile.TemporaryFile() as file:
            file.write(data)
            file.flush()
            with mmap.mmap(file.fileno(), 0) as mapped:
                self.assertEqual(rule.lines(mapped), octets)
        self.assertEqual((rule.lines(""), rule.lines(b"\n\n")), ([], []))
        self.assertEqual(rule.lines("\ufeff" + '{"n": 2}'), ["\ufeff" + '{"n": 2}'])
        self.assertEqual(exprlang.Rule("s == 'é'").lines('{"s": "é"}'), ['{"s": "é"}'])
        for wrong in [None, 5, [b"{}"], io.BytesIO(b"{}")]:
            with self.assertRaises(TypeError):
                rule.lines(wrong)
        with self.assertRaisesRegex(ValueError, "surrogate"):
            rule.lines("\ud800")

    def test_many_lines(self):
        lines = [json.dumps({"n": n, "text": "x" * (n % 50)}) for n in range(20000)]
        rule = exprlang.Rule("n % 3 == 0")
        self.assertEqual(rule.lines("\n".join(lines)), lines[::3])
        self.assertEqual(exprlang.Rule("true").lines("\n".join(lines)), lines)
        self.assertEqual(
            exprlang.Rule("len(text) > 2000000").lines(json.dumps({"text": "x" * 3000000})),
            [json.dumps({"text": "x" * 3000000})],
        )

    def test_lines_are_read_as_json_is(self):
        """A line is right or wrong as Python's json has it, and so is each value of it."""
        lines = [
            '{"n": 1, "s": "text", "x": [1, {"y": null, "z": [true, false]}], "other": -90}',
            '{"n":0,"n":3,"x":{},"other":[[], {}, "a\\n\\"b\\u00e9\\\\"]}',
            ' { "s" : "\\ud83d\\ude00 \\/" ,\t"other" : "\\ud83d\\ude00" , "n" : 0 }\r',
            '{"s": "é€😀", "é": "\x7f", "\\u006e": 5, "x": "\\\\"}',
            '{"n": 999999999999999999, "other": 9223372036854775807, "x": -9223372036854775808}',
            '{"other": {"n": 7, "s": ["n", {"x": -1}]}, "s": ""}',
            "{}",
        ]
        lines += [f'{{"x": {"[" * n}{"]" * n}, "n": 4}}' for n in (15, 16, 17, 126, 127)]
        lines += [f'{{"n": 1, "other": {"[" * n}{"]" * n}}}' for n in (15, 16, 17, 126, 127)]
        marks = [bytes([mark]) for mark in b'"\\{}[],:01289-.eE+ntfudDsx \t\r\0\x7f\xff']
        marks += ["é".encode(), b""]
        chance = random.Random(71)

        def damaged(line):
            for _ in range(chance.randrange(4)):
                begin = chance.randrange(len(line) + 1)
                end = begin + chance.choice([0, 0, 1, 1, 2, 5])
                put = chance.choice([*marks, line[end : end + 9]])
                line = line[:begin] + put + line[end:]
            return line if line.strip() else b"{}"

        others = r"""-0 00 01 - -1 1.5 1e3 1E3 .5 +1 tru truee nul NaN True
            "" "a "\x" "\e" "\0" "\" "\/" "\b\f\r\t" "\u12g4" "\u123" "\uD83D" "\uDE00" "\uD7ff"
            [ ] [1,] [,1] [1,,2] [1;2] [1]] { {,} {"a"} {"a":} {"a":1,} {"a":1}} {1:2}
            {"a":"b":"c"} {"a","b"} {"\u0061":1} {"\x":1}"""
        lines += [f'{{"n": 4, "other": {it}}}' for it in [*others.split(), "", "1 2", '"a\tb"']]
        octets = [damaged(chance.choice(lines).encode()) for _ in range(1000)]
        octets += [it.encode() for it in lines]
        octets.append(b'{"n": 4, "other": "\xff"}')
        texts = [line.decode(errors="replace") for line in octets]
        rules = [
            "n > 1",
            "len(toJSON([n, s, x])) % 2 == 0",
            "let n = 2; n > 1",
            "len(toJSON($env)) % 2 == 0",
        ]
        for text, missing, (given, data) in itertools.product(
            rules,
            ["error", "nil"],
            [(octets, b"\n".join(octets)), (texts, "\n".join(texts))],
        ):
            rule, errors = exprlang.Rule(text, missing=missing), []
            wanted = [self.judged(rule, line) for line in given]
            found = rule.lines(data, errors)
            self.assertEqual(found, [line for line, is_true in zip(given, wanted) if is_true])
            failed = [number for number, is_true in enumerate(wanted, 1) if is_true is None]
            self.assertEqual([number for number, _ in errors], failed)

    def test_lines_are_utf8(self):
        """A line with other bytes is wrong, and Python says which these are."""

        def is_right(line):
            try:
                return bool(line.decode())
            except UnicodeDecodeError:
                return False

        firsts = [*range(0x7F, 0x82), *range(0xBF, 0xC4), *range(0xDE, 0x100)]
        seconds = [0x7F, 0x80, 0x8F, 0x90, 0x9F, 0xA0, 0xBF, 0xC0]
        ends = [b"", b"\x80", b"\xbf", b"\x80\x80", b"\xbf\xbf", b"\x80\xc0", b"\x80\x80\x80"]
        parts = [bytes(two) + end for *two, end in itertools.product(firsts, seconds, ends)]
        parts += [bytes([first]) for first in firsts]
        for rule in ["n > 1", "n > 1 and s != ''"]:
            for form in [b'{"n": 4, "s": "%b"}', b'{"%b": 4, "n": 4, "s": 0}']:
                lines, errors = [form % it for it in parts], []
                found = exprlang.Rule(rule).lines(b"\n".join(lines), errors)
                self.assertEqual(found, [line for line in lines if is_right(line)])
                self.assertEqual(len(errors), len(lines) - len(found))

    def judged(self, rule, line):
        """Returns what a rule says of a line that Python's json reads, or None for an error."""
        wrong = object()

        def integer(digits):
            number = int(digits)
            return number if -(2**63) <= number < 2**63 and digits != "-0" else wrong

        def is_right(value, levels):
            if isinstance(value, (dict, list)):
                parts = [*value, *value.values()] if isinstance(value, dict) else value
                return levels > 0 and all(is_right(it, levels - 1) for it in parts)
            if isinstance(value, str):
                return not re.search("[\ud800-\udfff]", value)
            return value is not wrong

        try:
            hooks = dict.fromkeys(["parse_float", "parse_constant"], lambda _: wrong)
            text = line if isinstance(line, str) else line.decode()
            record = json.loads(text, parse_int=integer, **hooks)
            is_record = isinstance(record, dict) and is_right(record, 127)
            return rule.matches(record) if is_record else None
        except (ValueError, exprlang.Error):
            return None

    def test_errors(self):
        rule, data = (
            exprlang.Rule("n > 1"),
            b'{"n": 2}\n{"m": 1}\n[1]\n{"n": 1.5}\n{"n": 3}\n{"n": \xff}\n{"n": 4}',
        )
        self.error("evaluation", "^line 2: unknown name n$", rule.lines, data)
        errors = []
        self.assertEqual(rule.lines(data, errors), [b'{"n": 2}', b'{"n": 3}', b'{"n": 4}'])
        self.assertEqual([number for number, _ in errors], [2, 3, 4, 6])
        for number, error in errors:
            self.assertIs(type(error), exprlang.Error)
            self.assertTrue(str(error).startswith(f"line {number}: "), error)
        self.error(
            "evaluation", "^line 1: a rule is true or false", exprlang.Rule("n").lines, data
        )
        with self.assertRaises(TypeError):
            rule.lines(data, ())
        sparse = exprlang.Rule("(n ?? 0) == 0", missing="nil")
        self.assertEqual(sparse.lines('{"n": 0}\n{}\n{"n": 1}'), ['{"n": 0}', "{}"])
        few = exprlang.Rule("len(1..n) > 0", limits=exprlang.Limits(steps=100))
        errors = []
        self.assertEqual(
            few.lines('{"n": 5}\n{"n": 500}\n{"n": 6}', errors), ['{"n": 5}', '{"n": 6}']
        )
        self.assertEqual([(number, error.limit) for number, error in errors], [(2, "steps")])

    def test_functions(self):
        def fails(what):
            if what == 3:
                raise KeyError(what)
            if what == 2:
                raise exprlang.Error("evaluation", "no two")
            return what == 1

        rule, errors = exprlang.Rule("f(n)", exprlang.Environment(functions={"f": fails})), []
        self.assertEqual(
            rule.lines('{"n": 0}\n{"n": 1}\n{"n": 2}\n{"n": 1}', errors), ['{"n": 1}'] * 2
        )
        self.assertEqual(
            [(number, str(error)) for number, error in errors], [(3, "line 3: no two")]
        )
        with self.assertRaises(KeyError):
            rule.lines('{"n": 3}', [])
        self.assertEqual(rule.lines('{"n": 1}'), ['{"n": 1}'])


@unittest.skipUnless(_core.BACKEND == "extension", "ctypes holds the GIL between its calls")
class Threads(Case):
    def others_run(self, work):
        """Returns how often another thread gets its turn while this one works."""
        turns, stopped, begun = [0], threading.Event(), threading.Event()

        def counts():
            while not stopped.is_set():
                turns[0] += 1
                begun.set()
                time.sleep(0.0005)

        thread = threading.Thread(target=counts)
        before = sys.getswitchinterval()
        sys.setswitchinterval(100)  # so that only who gives the GIL away lets others run
        try:
            thread.start()
            begun.wait()
            first = turns[0]
            work()
            return turns[0] - first
        finally:
            stopped.set()
            thread.join()
            sys.setswitchinterval(before)

    def test_the_gil_is_released(self):
        data = b'{"n": 1, "text": "some text", "list": [1, 2, 3]}\n' * 20000
        rule = exprlang.Rule("n > 1")
        long = exprlang.compile("all(1..700, {all(1..700, {true})})", exprlang.UNLIMITED)
        text = "[" + ", ".join(map(str, range(40000))) + "]"
        works = [lambda: rule.lines(data), long.run]
        works.append(lambda: exprlang.compile(text, exprlang.UNLIMITED))
        for work in works:  # a few times, since a busy machine may have no processor for others
            self.assertTrue(any(self.others_run(work) for _ in range(10)))

    def test_the_gil_is_kept(self):
        rule = exprlang.compile("a + 1")

        def many():
            for _ in range(2000):
                rule.run({"a": 1})

        self.assertEqual(self.others_run(many), 0)

    def test_many_are_interrupted(self):
        """A signal ends work on many lines or records."""

        class Alarm(BaseException):
            pass

        def rings(*_):
            raise Alarm

        rule = exprlang.Rule("n > 1")
        lines, records = b'{"n": 1}\n' * 4_000_000, itertools.repeat({"n": 1})
        before = signal.signal(signal.SIGALRM, rings)
        try:
            for work in [lambda: rule.lines(lines), lambda: rule.each(records)]:
                with self.assertRaises(Alarm):
                    signal.setitimer(signal.ITIMER_REAL, 0.1)
                    work()
        finally:
            signal.setitimer(signal.ITIMER_REAL, 0)
            signal.signal(signal.SIGALRM, before)

    def test_a_fork_meanwhile(self):
        """A child runs rules while other threads of its parent read lines, and the rule may close."""
        rule, data = exprlang.Rule("n > 1"), b'{"n": 2}\n' * 20000
        threads = [threading.Thread(target=rule.lines, args=(data,)) for _ in range(3)]
        for thread in threads:
            thread.start()
        ended = []
        for _ in range(5):
            child = os.fork()
            if child == 0:
                found = rule.filter([{"n": 1}, {"n": 2}]), rule.lines(data[:9])
                os._exit(0 if found == ([{"n": 2}], [data[:8]]) else 1)
            ended.append(os.waitpid(child, 0)[1])
        rule.close()
        for thread in threads:
            thread.join()
        self.assertEqual(ended, [0] * 5)

    def test_asyncio(self):
        rule = exprlang.Rule("n > 1")

        async def ticks(data):
            """Returns how often the loop goes round while another thread looks at the lines."""
            count, lines = 0, asyncio.ensure_future(asyncio.to_thread(rule.lines, data))
            while not lines.done():
                await asyncio.sleep(0.001)
                count += 1
            self.assertEqual(len(await lines), data.count(b"\n"))
            return count

        tries = (asyncio.run(ticks(b'{"n": 2}\n' * 2**power)) for power in range(14, 21))
        self.assertTrue(any(count > 3 for count in tries))


class Objects(Case):
    """What is made of the classes in other ways than users do, and what refers to itself."""

    def test_half_made(self):
        for kind in [exprlang.Program, exprlang.Rule]:
            program = kind.__new__(kind)
            self.assertIs(program.closed, True)
            for call in [program._run, program._matches, program._each, program._filter]:
                with self.assertRaisesRegex(ValueError, "the program is closed"):
                    call([], None, None)
            with self.assertRaisesRegex(ValueError, "the program is closed"):
                program._lines(b"{}", None, None, None)
            program.close()
        host = exprlang.Environment.__new__(exprlang.Environment)
        with self.assertRaisesRegex(ValueError, "the environment is closed"):
            exprlang.compile("1").run(None, host)

    def test_made_twice(self):
        rule = exprlang.compile("a")
        with self.assertRaises(TypeError):
            rule.__init__("b")
        self.assertEqual(rule.run({"a": 1}), 1)
        host = exprlang.Environment(functions={"f": lambda: 1})
        program = exprlang.compile("f()")
        self.assertEqual(program.run(None, host), 1)
        host.__init__(functions={"f": lambda: 2})
        self.assertEqual(program.run(None, host), 2)

    def test_subclasses(self):
        class Slow(exprlang.Rule):
            __slots__ = ("other",)

            def run(self, *arguments):
                self.other = super().run(*arguments)
                return self.other

        class Names(exprlang.Context):
            def __getitem__(self, name):
                return 7

        class Host(exprlang.Environment):
            pass

        rule = Slow("a + f()", Host(functions={"f": lambda: 1}))
        self.assertEqual((rule.run({"a": 1}), rule.other), (2, 2))
        self.assertEqual(rule.run(Names({"a": 5})), 6)
        self.assertIs(type(copy.copy(rule)), Slow)

    def test_cycles(self):
        class Held:
            pass

        def makes():
            held, host = Held(), exprlang.Environment()
            rule = exprlang.Rule("f()", host)
            host.add_function("f", lambda: (rule, held) and 1)
            order = exprlang.Context({"self": 1})
            order["held"] = [order, held, rule]
            held.all = (host, rule, order)
            self.assertEqual(rule.run(order), 1)
            with self.assertRaises((TypeError, ValueError)):
                exprlang.evaluate("held", order)
            return weakref.ref(held)

        refs = [makes() for _ in range(20)]
        gc.collect()
        self.assertEqual([ref() for ref in refs if ref() is not None], [])

    def test_closed_meanwhile(self):
        """What a function closes, changes or drops does no harm to the run that calls it."""
        for _ in range(3):
            host, order = exprlang.Environment(), exprlang.Context({"a": 1, "b": 2})
            rule = exprlang.Rule("f(1) + a + f(2)", host)

            def closes(number):
                for it in (rule, host):
                    it.close()
                order.pop("b", None)
                gc.collect()
                return number

            host.add_function("f", closes)
            self.assertEqual(rule.run(order), 4)
            for call in [rule.run]:
                with self.assertRaisesRegex(ValueError, "closed"):
                    call(order)

    def test_records_that_misbehave(self):
        class Bad(collections.abc.Mapping):
            def __getitem__(self, name):
                raise ZeroDivisionError

            def __iter__(self):
                raise ZeroDivisionError

            def __len__(self):
                return 1

        class Shrinks(dict):
            def items(self):
                outer.clear()
                return super().items()

        class Raises:
            def __iter__(self):
                yield {"a": 1}
                raise ZeroDivisionError

        class Hash(str):
            def __hash__(self):
                return hash("a")

            def __eq__(self, other):
                raise ZeroDivisionError

        rule = exprlang.Rule("a == 1")
        for record in [Bad(), {Hash("a"): 1}]:
            with self.assertRaises(ZeroDivisionError):
                rule.run(record)
        with self.assertRaises(ZeroDivisionError):
            exprlang.compile("$env").run(Bad())
        with self.assertRaises(ZeroDivisionError):
            rule.each(Raises())
        outer = {"a": Shrinks(b=1), "c": 2}
        self.assertEqual(
            exprlang.compile("[a, c]").run({"a": outer["a"], "c": outer}), [{"b": 1}, {}]
        )
        with self.assertRaisesRegex(ValueError, "surrogate"):
            exprlang.compile("$env").run({"\ud800": 1})

    def test_arguments_of_the_backend(self):
        program = exprlang.compile("a")
        runs = [program._run, program._run_used, program._each, program._lines]
        for call in [*runs, program._open, program._names]:
            with self.assertRaises((TypeError, AttributeError)):
                call(1, 2, 3, 4, 5, 6)
        if _core.BACKEND == "extension":
            for words in [
                (1, None, False, None),
                ("a", 5, False, None),
                ("a", (1,), False, None),
                ("a", None, False, 5),
            ]:
                with self.assertRaises(TypeError):
                    _core.Program()._open(*words)
            for words in [
                (5, {}),
                ((), 5),
                ((5,), {}),
                (((),), {}),
                ((("function", "f"),), {}),
                ((("now", 1),), {}),
            ]:
                with self.assertRaises((TypeError, IndexError, SystemError)):
                    _core.Environment()._open(*words)
            with self.assertRaises(TypeError):
                program._run(context=1, environment=None, missing=None)
            with self.assertRaises(TypeError):
                program._run_used({"a": 1}, None, None, ())

    def test_long_runs(self):
        """A run that takes many steps begins again without the GIL, and ends the same."""
        rule = exprlang.compile("len(filter(1..n, {# % 2 == 0}))")
        for n in [10, 100_000, 20, 100_000, 0]:
            self.assertEqual(rule.run({"n": n}), n // 2)
        for steps, is_enough in [(9_000, False), (15_000, False), (900_000, True)]:
            limits = exprlang.Limits(steps=steps)
            rule = exprlang.compile("all(1..5000, {# > 0})", limits)
            for _ in range(2):
                if is_enough:
                    self.assertIs(rule.run(), True)
                else:
                    with self.assertRaises(exprlang.LimitError):
                        rule.run()
        host = exprlang.Environment(functions={"f": lambda x: x})
        text = "f(1) + len(filter(1..n, {# > 0})) + f(2)"
        self.assertEqual(exprlang.evaluate(text, {"n": 50_000}, host), 50_003)


if __name__ == "__main__":
    unittest.main()
