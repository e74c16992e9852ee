-- The functions: values of all kinds, records, and what is null.
CREATE EXTENSION exprlang;
SELECT expr_version() ~ '^\d+\.\d+\.\d+, .*(proved|unproved)$' AS says_version;
SELECT proname, provolatile, proisstrict, proparallel FROM pg_proc WHERE proname LIKE 'expr\_%' ORDER BY 1;

-- expr_true
SELECT expr_true('price * count > 100', '{"price": 60, "count": 2}');
SELECT expr_true('price * count > 200', '{"price": 60, "count": 2}');
SELECT expr_true('country in ["DE", "FR"] and "new" in tags', '{"country": "FR", "tags": ["sale", "new"]}');
SELECT expr_true('name matches "^[a-z]+$"', '{"name": "abc"}');
SELECT expr_true(NULL, '{}') IS NULL AS no_rule, expr_true('true', NULL) IS NULL AS no_record;

-- expr_eval: a value of each kind
SELECT rule, expr_eval(rule, '{"xs": [1, 2, 3], "name": "Ann"}') FROM (VALUES
    ('nil'), ('true'), ('-9223372036854775807 - 1'), ('"a\"\\\u00e9"'), ('map(xs, {# * 2})'), ('{name: name, n: len(xs)}'),
    ('[]'), ('{}'), ('[[nil, {a: [true]}]]'), ('duration("90s")'), ('date("2024-03-02")'), ('b"AB"'), ('name[0:1] + "b"')) AS it (rule);
SELECT jsonb_typeof(expr_eval('nil', '{}')), expr_eval('nil', '{}') IS NULL AS is_null;

-- values of a record
SELECT expr_eval('[a, b, c, d, e]', '{"a": null, "b": false, "c": "", "d": [], "e": {}}');
SELECT expr_eval('[a, b, c]', '{"a": 9223372036854775807, "b": -9223372036854775808, "c": -2147483649}');
SELECT expr_eval('deep[1].x[0].y', '{"deep": [0, {"x": [{"y": "found"}]}]}');
SELECT expr_eval('text', jsonb_build_object('text', E'a\nb\u00e9\U0001f600'));
-- a name that the rule does not read may be anything
SELECT expr_true('price > 1', '{"price": 60, "weight": 1.5, "text": "\u00e9", "nested": [1.5]}');
-- the whole record
SELECT expr_eval('$env', '{"bb": 1, "a": [true, null], "c": {"d": {}}}');
SELECT expr_eval('$env?.price ?? 7', '{"other": 1}'), expr_eval('$env?.price ?? 7', '{"price": 1}');
SELECT expr_eval('len($env)', '{}');
-- a name of a predicate is a field of the item before it is a name of the record
SELECT expr_eval('filter(xs, {.n > least})', '{"xs": [{"n": 1}, {"n": 3}], "least": 2}');
-- records that are stored out of line
SELECT expr_true('len(text) == 1000000', jsonb_build_object('text', repeat('a', 1000000)));

-- expr_check
SELECT expr_check('price > 1') IS NULL AS is_right, expr_check(NULL) IS NULL AS no_rule;
SELECT rule, expr_check(rule) FROM (VALUES ('price >'), (E'let x = 1;\nx +'), ('"abc'), (''), ('9223372036854775808'), ('f(1)')) AS it (rule);
SELECT expr_check(repeat('(', 5001) || '1' || repeat(')', 5001)) IS NULL AS brackets, expr_check(repeat('-', 6000) || '1');
SELECT expr_check('a matches "\w{500}"'), expr_check(repeat(' ', 65536)), expr_check(repeat('1', 65537));
