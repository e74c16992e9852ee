-- What works, as the command line and a program print it: tests/statements.out has the values.
SELECT expr_true('price * count > 100', '{"price": 60, "count": 2}'), expr_true('price * count > 200', '{"price": 60, "count": 2}');
SELECT expr_true('price * count > 100 and name startsWith "p"', 'price', 60, 'count', 2, 'name', 'pen');
SELECT expr_true('country in ["DE", "FR"] and "new" in tags', '{"country": "FR", "tags": ["sale", "new"]}');
SELECT expr_eval('1 + 2'), expr_eval('nil') IS NULL, expr_eval('true'), expr_eval('"text"'), hex(expr_eval('b"AB"'));
SELECT expr_eval('map(xs, {# * 2})', '{"xs": [1, 2, 3]}'), expr_eval('{name: name, n: len(xs)}', '{"xs": [1], "name": "Ann"}');
SELECT expr_eval('duration("90s")'), expr_eval('date("2024-03-02").Year()'), expr_eval('toBase64("a")');
SELECT typeof(expr_eval('1')), typeof(expr_eval('"1"')), typeof(expr_eval('nil')), typeof(expr_eval('b"1"')), typeof(expr_eval('[1]'));
SELECT json_array(expr_eval('[1, [2]]'), expr_eval('"[1]"')), expr_eval('tags[1]', 'tags', json('["a", "b"]')), expr_eval('len(tags)', 'tags', '["a"]');
SELECT expr_true(NULL, '{}') IS NULL, expr_true('true', NULL) IS NULL, expr_true('x == nil', 'x', NULL), expr_check(NULL) IS NULL;
SELECT expr_eval('[a, b, c, d, e]', '{"a": null, "b": false, "c": "", "d": [], "e": {}}');
SELECT expr_eval('[a, b, c]', ' { "a" : 9223372036854775807 , "b" : -9223372036854775808, "c": -1 } ');
SELECT expr_eval('text', '{"text": "a\nb\u00e9\ud83d\ude00\/"}'), expr_eval('a + b', '{"\u0061": 1, "b": 2}'), expr_eval('a', '{"a": 1, "a": 2}');
SELECT expr_eval('$env', '{"bb": 1, "a": [true, null]}'), expr_eval('$env?.price ?? 7', '{"other": 1}'), expr_eval('$env', 'x', 1, 'y', 'z');
SELECT expr_true('price > 1', '{"price": 60, "weight": 1.5, "far": [1e400, {"x": -0}]}'), expr_true('price > 1', 'price', 60, 'weight', 1.5);
SELECT expr_eval('filter(xs, {.n > least})', '{"xs": [{"n": 1}, {"n": 3}], "least": 2}');
SELECT expr_check('price > 1') IS NULL, expr_check('price >'), expr_check('9223372036854775808'), expr_check(printf('%.*c', 65537, '1'));
WITH RECURSIVE n (i) AS (SELECT 0 UNION ALL SELECT i + 1 FROM n WHERE i < 79)
    SELECT count(*), sum(expr_true('m > ' || a.i, 'm', b.i)) FROM n a, n b;
CREATE TABLE orders (id INTEGER PRIMARY KEY, record TEXT CHECK (expr_true('age < 100', record)));
INSERT INTO orders WITH RECURSIVE n (i) AS (SELECT 1 UNION ALL SELECT i + 1 FROM n WHERE i < 600)
    SELECT i, json_object('age', i % 60, 'country', iif(i % 3 = 0, 'DE', 'US')) FROM n;
CREATE INDEX old_germans ON orders (expr_true('age > 50 and country == "DE"', record));
SELECT count(*) FROM orders WHERE expr_true('age > 50 and country == "DE"', record) = 1;
SELECT count(*) FROM orders WHERE record->>'age' > 50 AND record->>'country' = 'DE';
CREATE TABLE rules (name TEXT, rule TEXT CHECK (expr_check(rule) IS NULL));
INSERT INTO rules VALUES ('adult', 'age > 18'), ('german', 'country == "DE"');
SELECT name, count(*) FROM rules, orders WHERE expr_true(rule, record) GROUP BY name ORDER BY name;
