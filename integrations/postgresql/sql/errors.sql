-- Errors and limits: SQLSTATEs, messages and positions.
CREATE FUNCTION ended(rule text, record jsonb) RETURNS text LANGUAGE plpgsql AS $$
BEGIN
    RETURN expr_eval(rule, record);
EXCEPTION WHEN OTHERS THEN
    RETURN '!' || SQLSTATE || ' ' || SQLERRM;
END $$;
SELECT rule, ended(rule, record::jsonb) FROM (VALUES
    ('price >', '{}'),
    ('9223372036854775808', '{}'),
    ('1 / 0', '{}'),
    ('7 % x', '{"x": 0}'),
    ('nope', '{}'),
    ('nofn(1)', '{}'),
    ('1 + "a"', '{}'),
    ('"a" matches "("', '{}'),
    ('"a" matches x', '{"x": "("}'),
    ('x', '{"x": 1.5}'),
    ('x', '{"x": [1, {"y": 1.0}]}'),
    ('x', '{"x": 9223372036854775808}'),
    ('len(1..2000000)', '{}'),
    ('reduce(1..10000, [#acc], 0)', '{}'),
    ('repeat("a", 100000000)', '{}'),
    ('x', '[1]'),
    ('x', '"x"'),
    ('x', 'null')) AS it (rule, record);
SELECT ended('1 < 2', '{}'), ended(repeat('-', 6000) || '1', '{}'), ended('x matches "\w{500}"', '{}'), ended(repeat('1', 65537), '{}');

-- an error shows the rule, and where in it the error is
SELECT expr_true('price > ', '{"price": 60}');
SELECT expr_true(E'"\u00e9" == name and\n  (name > )', '{"name": "a"}');
SELECT expr_true('price', '{"price": 60}');
SELECT expr_true('nope > 1', '{"price": 60}');
SELECT expr_true('"' || repeat('a', 2000) || '" >', '{}');

-- what a record may bring: a weight of 1,000,000 in 127 levels
SELECT left(ended('len(xs)', jsonb_build_object('xs', (SELECT jsonb_agg(i) FROM generate_series(1, 999996) i))), 80) AS many;
SELECT left(ended('len(xs)', jsonb_build_object('xs', (SELECT jsonb_agg(i) FROM generate_series(1, 999997) i))), 80) AS too_many;
SELECT left(ended('$env', jsonb_build_object('xs', (SELECT jsonb_agg(i) FROM generate_series(1, 999997) i))), 80) AS too_many;
SELECT left(ended('x', jsonb_build_object('x', repeat('a', 15999984))), 80) AS too_long;
SELECT left(ended('len(x)', ('{"x":' || repeat('[', 126) || repeat(']', 126) || '}')::jsonb), 80) AS deep;
SELECT left(ended('len(x)', ('{"x":' || repeat('[', 127) || repeat(']', 127) || '}')::jsonb), 80) AS too_deep;
SELECT left(ended('len($env)', ('{"x":' || repeat('[', 127) || repeat(']', 127) || '}')::jsonb), 80) AS too_deep;
-- and it brings nothing under names that the rule does not read
SELECT expr_eval('y', jsonb_build_object('y', 1, 'xs', (SELECT jsonb_agg(i) FROM generate_series(1, 1000000) i)));

-- a rule that takes stack, in calls that take ever more of it
CREATE FUNCTION deep(levels int) RETURNS text LANGUAGE plpgsql AS $$
BEGIN
    IF levels > 0 THEN
        RETURN deep(levels - 1);
    END IF;
    RETURN expr_eval('len(string(reduce(1..400, [#acc], 0)))', '{}');
END $$;
CREATE FUNCTION ended_deep(levels int) RETURNS text LANGUAGE plpgsql AS $$
BEGIN
    RETURN deep(levels);
EXCEPTION WHEN OTHERS THEN
    RETURN '!' || SQLSTATE;
END $$;
SELECT DISTINCT ended_deep(n) FROM generate_series(0, 2000, 50) n ORDER BY 1;
-- and where too little stack is left for the library
SET max_stack_depth = '7400kB';
SELECT ended('true', '{}');
RESET max_stack_depth;

-- a value that jsonb does not take
SELECT ended('fromJSON(''"\u0000"'')', '{}');
-- the session goes on
SELECT expr_true('price > 1', '{"price": 60}');

-- a database with another encoding
CREATE DATABASE exprlang_latin ENCODING 'LATIN1' LOCALE 'C' TEMPLATE template0;
\c exprlang_latin
CREATE EXTENSION exprlang;
SELECT expr_true('true', '{}');
\c contrib_regression
DROP DATABASE exprlang_latin;
