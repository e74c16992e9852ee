-- Queries that are canceled: each would take minutes. The session goes on, with nothing left of the run.
SET statement_timeout = '300ms';
SELECT count(*) FROM generate_series(1, 1000000) i WHERE expr_true('len(filter(1..90000, # % n == 0)) > 0', jsonb_build_object('n', i));
SELECT count(*) FROM generate_series(1, 1000000) i WHERE expr_true('all(1..60000, {# > 0 and n > 0})', jsonb_build_object('n', i));
RESET statement_timeout;
SELECT expr_true('n > 1', '{"n": 2}');

-- while a large record is read
CREATE TEMP TABLE large AS SELECT jsonb_build_object('xs', (SELECT jsonb_agg(i) FROM generate_series(1, 900000) i)) AS record;
SET statement_timeout = '300ms';
SELECT count(*) FROM large, generate_series(1, 1000000) i WHERE expr_true('len(xs) > ' || i % 7, record);
SELECT count(*) FROM large, generate_series(1, 1000000) i WHERE expr_true('len($env) > ' || i % 7, record);
RESET statement_timeout;
SELECT expr_eval('len(xs)', record) FROM large;
SELECT expr_true('n > 1', '{"n": 2}');
