"""Tests of the extension for SQLite in Python's sqlite3. EXPRLANG_SQLITE is the path of the extension."""
import json, math, os, random, sqlite3, sys, threading, time, unittest

sys.path.insert(0, os.path.join(os.path.dirname(os.path.abspath(__file__)), "../../sql"))
import database_rows

EXTENSION = os.environ["EXPRLANG_SQLITE"]
LIMIT = getattr(sqlite3, "SQLITE_TOOBIG", 18)
HEAVY = "all(1..90000, {all(1..90000, {n > 0})})"
NUMBERS = "WITH RECURSIVE numbers (n) AS (SELECT 1 UNION ALL SELECT n + 1 FROM numbers WHERE n < 1000000) "


def connect() -> sqlite3.Connection:
    connection = sqlite3.connect(":memory:", check_same_thread=False)
    connection.enable_load_extension(True)
    connection.load_extension(EXTENSION)
    return connection


class Case(unittest.TestCase):
    def setUp(self) -> None:
        self.connection = connect()
        self.addCleanup(self.connection.close)

    def one(self, query: str, *values: object) -> object:
        return self.connection.execute(query, values).fetchone()[0]

    def eval(self, *arguments: object) -> object:
        return self.one(f"SELECT expr_eval({', '.join('?' * len(arguments))})", *arguments)

    def error(self, *arguments: object) -> str:
        """The message with which a call of expr_eval ends."""
        with self.assertRaises(sqlite3.Error) as caught:
            self.eval(*arguments)
        message = str(caught.exception)
        self.assertTrue(message.startswith("exprlang: "), message)
        return message[len("exprlang: ") :]


class Values(Case):
    def test_values_of_python(self) -> None:
        for value in (None, 0, -1, 2**63 - 1, -(2**63), "", "text", "é\U0001f600", b"", b"\0\xff"):
            with self.subTest(value=value):
                self.assertEqual(self.eval("x", "x", value), value)

    def test_fractions(self) -> None:
        for value in (1.5, 1.0, 1e300, -0.0):
            with self.subTest(value=value):
                self.assertTrue(self.error("x", "x", value).startswith("x: a JSON number has a fraction"))
        self.assertEqual(self.error("x", "x", -math.inf), "x: infinity is no value of the language")
        self.assertIsNone(self.eval("x", "x", math.nan))  # SQLite makes NULL of it

    def test_times(self) -> None:
        self.assertEqual(self.eval('duration("1m30s")'), 90_000_000_000)
        self.assertEqual(self.eval('date("2024-03-02T10:00:00.5+02:00")'), "2024-03-02T10:00:00.5+02:00")
        self.assertEqual(self.one("SELECT datetime(expr_eval(?))", 'date("2024-03-02") + duration("36h")'), "2024-03-03 12:00:00")
        self.assertEqual((self.eval('date("2024-03-02").Month()'), self.eval('date("2024-03-02").Weekday()')), (3, 6))
        self.assertEqual(self.eval('timezone("UTC")'), "UTC")

    def test_arguments(self) -> None:
        for arguments in ((), ("1", "a", 1, "b")):
            self.assertIn("a rule and a record in JSON", self.error(*arguments))
        self.assertEqual(self.error("1", 1, 2), "a name is not a string")
        self.assertEqual(self.error("1", None, 2), "a name is not a string")
        self.assertEqual(self.eval(5, "{}"), 5)
        self.assertIn("unknown name", self.error("x", "y", 1))
        self.assertEqual(self.eval("x", "x", 1, "x", 2), 2)

    def test_many_names(self) -> None:
        names = [f"name{i}" for i in range(60)]
        arguments = [word for i, name in enumerate(names) for word in (name, i)]
        self.assertEqual(self.eval("sum([" + ", ".join(reversed(names)) + "])", *arguments), sum(range(60)))
        record = json.dumps(dict(zip(names, range(60))))
        self.assertEqual(json.loads(self.eval("[" + ", ".join(names) + "]", record)), list(range(60)))


class Rules(Case):
    def test_more_rules_than_are_kept(self) -> None:
        chance = random.Random(2)
        patterns = {f'n matches "\\w{{{90 + i}}}"' + " " * i: False for i in range(8)}  # of which a few are all that is kept
        for _ in range(3000):
            number, least = chance.randrange(150), chance.randrange(150)
            self.assertEqual(self.eval(f"n > {least}", "n", number), number > least)
            if least < 20:
                rule = chance.choice(list(patterns))
                self.assertEqual(self.eval(rule, "n", "a"), patterns[rule])
        long_rules = [f"[n{', n' * 20_000}][{i}] + {i}" for i in range(4)]
        for i in (0, 1, 2, 3, 0, 3, 2, 1):
            self.assertEqual(self.eval(long_rules[i], "n", 1), 1 + i)

    def test_utf_16(self) -> None:
        self.connection.execute("PRAGMA encoding = 'UTF-16'")
        self.connection.execute("CREATE TABLE t (rule TEXT, record TEXT)")
        self.connection.execute("INSERT INTO t VALUES (?, ?)", ('name + "\u00e9"', '{"name": "\U0001f600"}'))
        self.assertEqual(self.one("SELECT expr_eval(rule, record) FROM t"), "\U0001f600\u00e9")


class Errors(Case):
    def test_messages(self) -> None:
        self.assertEqual(self.error("price >", "{}"), "line 1, column 8: syntax error")
        self.assertEqual(self.error("let x = 1;\nx +", "{}"), "line 2, column 4: syntax error")
        self.assertEqual(self.error("nope", "{}"), "unknown name nope")
        self.assertEqual(self.error("x", '{"x": 1.5}')[:31], "x: a JSON number has a fraction")
        self.assertEqual(self.error("x matches '('", "x", ""), "invalid regular expression: regex parse error at 0..1: unclosed group")

    def test_the_connection_goes_on(self) -> None:
        for rule in ("price >", "nope", "1 / 0", "len(1..2000000)", "9223372036854775808"):
            self.error(rule, "{}")
            self.assertEqual(self.eval("n + 1", "n", 1), 2)

    def test_truth(self) -> None:
        for rule in ("1", "nil", '"true"', "[]"):
            with self.assertRaisesRegex(sqlite3.Error, "exprlang: the value of the rule is not a boolean"):
                self.one("SELECT expr_true(?)", rule)

    def test_limits(self) -> None:
        many = json.dumps({"x": [1] * 999_997})
        most = json.dumps({"x": [1] * 999_996})
        limits = [
            ("len(1..2000000)", "the run takes more steps than the limit"),
            ("-" * 6_000 + "1", "the expression nests deeper than the limit"),
            ('"a" matches "\\w{500}"', "the patterns of the expression weigh more than the limit"),
            ("1" * 65_537, "the rule has 65537 bytes, where 65536 are the most"),
        ]
        for rule, message in limits:
            with self.subTest(rule=rule[:40]):
                self.assertEqual(self.error(rule, "{}"), message)
        weight = "what the rule reads of the record weighs more than 1000000"
        large = [("x", "x", "a" * 15_999_984), ("x", "x", b"a" * 15_999_984)]
        for rule, *record in [("len(x)", many), ("len($env)", many), *large]:
            self.assertEqual(self.error(rule, *record), weight)
        self.assertEqual(self.eval("len(x)", most), 999_996)
        self.assertEqual(self.eval("y", json.dumps({"x": [1] * 1_000_000, "y": 1})), 1)
        with self.assertRaises(sqlite3.Error) as caught:
            self.eval("len(1..2000000)", "{}")
        self.assertEqual(getattr(caught.exception, "sqlite_errorcode", LIMIT), LIMIT)


class Json(Case):
    """What is JSON: the same as for Python's json, which reads by RFC 8259 but for NaN and the infinities."""

    def is_json(self, text: str) -> bool:
        def no_constant(word: str) -> None:
            raise ValueError(word)

        try:
            json.loads(text, parse_constant=no_constant)
            return True
        except (ValueError, RecursionError):
            return False

    def check(self, value: str) -> None:
        """A record with a value that the rule doesn't read, and one with a value that it does."""
        record = f'{{"before": 0, "other": {value}, "a": 1}}'
        should = 1 if self.is_json(record) else "the string is not valid JSON"
        with self.subTest(record=record):
            try:
                self.assertEqual(self.eval("a", record), should)
            except sqlite3.Error as error:
                self.assertEqual(str(error), f"exprlang: {should}")

    def test_forms(self) -> None:
        right = ["0", "-0", "1.5", "1e5", "1E+5", "1e-5", "-1.0e10", "true", "false", "null"]
        right += ['""', '"a\\n\\u00e9"', '"\\ud83d\\ude00"', '"\x7f"', "[]", "{}", "[[]]", '{"a": 2}', "[1,2 , 3]"]
        right += ['{"x" : {"y":[ ] } }', " \n\t\r1 ", "[" * 100 + "]" * 100]
        wrong = ["", "01", "-", "+1", ".5", "1.", "1e", "1e+", "0x1", "tru", "True", "nul", "NaN", "Infinity", "-Infinity"]
        wrong += ["'a'", '"a', '"\\x"', '"\\u12g4"', '"\\u123"', '"a\nb"', '"\t"', "[", "]", "[1,]", "[,1]", "[1 2]", "{", "{]"]
        wrong += ["[}", '{"a"}', '{"a":}', '{"a":1,}', "{1: 2}", '{"a" 1}', "1 2", "1,,2", "/**/1", "[1]]", '{"a": [1}]']
        wrong += ["\v1", "\u00a01", "\ufeff1", "truefalse", '"a""b"']
        for value in right + wrong:
            self.check(value)
        for value in right:
            self.assertTrue(self.is_json(value), value)
        for value in wrong:
            self.assertFalse(self.is_json(f'{{"a": {value}}}'), value)

    def test_changed_forms(self) -> None:
        chance = random.Random(1)
        form = '{"x": [1, -2.5e3, "a\\"b\\u00e9", {"y": [true, false, null]}], "z": {"": {}}}'
        for _ in range(4000):
            text = list(form)
            for _ in range(chance.randint(1, 3)):
                at = chance.randrange(len(text))
                text[at : at + chance.randint(0, 2)] = chance.choice(["", *'{}[]",:\\019.eE+-tfnu \n\x01', "é"])
            self.check("".join(text))

    def test_records(self) -> None:
        for record in ("[1]", "1", '"a"', "null", "true"):
            self.assertEqual(self.error("a", record), "a context must be made of a map with names as keys")
        for record in ("", "{", '{"a": 1', '{"a": 1}}', '{"a": 1} x', '{"a": 1,}', '{"a" = 1}', '{a: 1}'):
            self.assertEqual(self.error("a", record), "the string is not valid JSON")
        self.assertEqual(self.eval("len(x)", '{"x": ' + "[" * 126 + "]" * 126 + "}"), 1)
        self.error("len(x)", '{"x": ' + "[" * 127 + "]" * 127 + "}")
        self.assertEqual(self.one("SELECT expr_eval('a', CAST(x'7b2261223a317d' AS TEXT))"), 1)
        with self.assertRaisesRegex(sqlite3.Error, "UTF-8"):
            self.one("SELECT expr_eval('a', CAST(x'7b2261223a22ff227d' AS TEXT))")


class Rows(Case):
    def test_rows(self) -> None:
        """The expressions of rows/: the answers of the engine that this language is a port of, and worked examples."""
        query = "SELECT json_array(expr_eval(?, ?))"
        count = 0
        for row in database_rows.bench():
            with self.subTest(place=row.place, rule=row.rule):
                count += 1
                try:
                    answer = json.loads(self.one(query, row.rule, json.dumps(row.record)))[0]
                except sqlite3.Error as error:
                    self.assertTrue(row.answer.startswith("!"), f"{error}, and not {row.answer}")
                    is_wrong = self.one("SELECT expr_check(?) IS NOT NULL", row.rule)
                    self.assertEqual(bool(is_wrong), row.answer in ("!syntax", "!literal"))
                    continue
                self.assertFalse(row.answer.startswith("!"), row.answer)
                should = json.loads(row.answer)
                should = int(should) if isinstance(should, bool) else should
                self.assertEqual(json.dumps(answer, sort_keys=True), json.dumps(should, sort_keys=True))
        self.assertGreater(count, 10_000)

    def test_hostile_rows(self) -> None:
        """Each takes a second of the processor at most, and ends with a value or an error of a rule."""
        stopped = 0
        for row in database_rows.hostile():
            with self.subTest(place=row.place):
                start = time.process_time()
                try:
                    self.eval(row.rule, json.dumps(row.record))
                except sqlite3.Error as error:
                    self.assertTrue(str(error).startswith("exprlang: "), error)
                    stopped += "limit" in str(error) or "are the most" in str(error)
                self.assertLess(time.process_time() - start, 1)
        self.assertGreater(stopped, 100)
        self.assertEqual(self.eval("n + 1", "n", 1), 2)


class Connections(Case):
    def test_interrupt(self) -> None:
        query = NUMBERS + "SELECT count(*) FROM numbers WHERE expr_true(?, 'n', n)"
        with self.assertRaisesRegex(sqlite3.Error, "steps"):
            self.one(query, HEAVY)
        timer = threading.Timer(0.5, self.connection.interrupt)
        timer.start()
        start = time.process_time()
        with self.assertRaisesRegex(sqlite3.OperationalError, "interrupted"):
            self.one(query, "len(filter(1..9000, # % n == 0)) > 0")
        self.assertLess(time.process_time() - start, 5)  # all rows would take minutes
        timer.join()
        self.assertEqual(self.eval("n + 1", "n", 1), 2)

    def test_loaded_twice(self) -> None:
        self.connection.load_extension(EXTENSION)
        self.assertEqual(self.eval("n + 1", "n", 1), 2)

    def test_many_connections(self) -> None:
        for _ in range(50):
            connection = connect()
            self.assertEqual(connection.execute("SELECT expr_eval('n + 1', 'n', 1)").fetchone()[0], 2)
            connection.close()

    def test_threads(self) -> None:
        """Each thread has a connection of its own, and one connection goes from thread to thread."""
        wrong: list[object] = []
        lock = threading.Lock()

        def work(number: int) -> None:
            own = connect()
            for i in range(300):
                if own.execute("SELECT expr_eval('n * 2', 'n', ?)", (i,)).fetchone()[0] != 2 * i:
                    wrong.append((number, i))
                with lock:
                    if self.eval(f"n + {number}", "n", i) != i + number:
                        wrong.append((number, i))
            own.close()

        threads = [threading.Thread(target=work, args=(number,)) for number in range(4)]
        for thread in threads:
            thread.start()
        for thread in threads:
            thread.join()
        self.assertEqual(wrong, [])

    def test_untrusted_schema(self) -> None:
        """The functions do nothing but compute, so a schema that isn't trusted may use them."""
        self.connection.execute("PRAGMA trusted_schema = OFF")
        self.connection.execute("CREATE VIEW v AS SELECT expr_true('n > 1', 'n', 2) AS is_true")
        self.assertEqual(self.one("SELECT is_true FROM v"), 1)


if __name__ == "__main__":
    unittest.main()
