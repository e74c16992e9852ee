-- Rules in tables, constraints, indexes, views and parallel plans.
CREATE TABLE orders (id int PRIMARY KEY, record jsonb NOT NULL);
INSERT INTO orders SELECT i, jsonb_build_object('id', i, 'age', i % 60, 'country', CASE WHEN i % 3 = 0 THEN 'DE' ELSE 'US' END, 'tags', '["a", "b"]'::jsonb)
    FROM generate_series(1, 6000) i;
ANALYZE orders;

-- a table of rules, of which each must compile
CREATE TABLE rules (name text PRIMARY KEY, rule text NOT NULL CONSTRAINT compiles CHECK (expr_check(rule) IS NULL));
INSERT INTO rules VALUES ('adult', 'age > 18'), ('german', 'country == "DE"'), ('late', 'id > 5000 and age > 30');
INSERT INTO rules VALUES ('broken', 'age >');
SELECT name, count(*), min(id), max(id) FROM rules JOIN orders ON expr_true(rule, record) GROUP BY name ORDER BY name;
SELECT count(*) FROM orders WHERE (record->>'age')::int > 18;
SELECT count(*) FROM orders WHERE id > 5000 AND (record->>'age')::int > 30;

-- more rules than a backend keeps, each for each order
SELECT count(*) AS rules, sum(hits) AS hits, bool_and(hits = 100 - n) AS all_right FROM (
    SELECT n, count(*) FILTER (WHERE expr_true('id > ' || n, record)) AS hits
    FROM generate_series(0, 99) n CROSS JOIN (SELECT record FROM orders WHERE id <= 100) o GROUP BY n) AS it;
SELECT count(*) FILTER (WHERE expr_eval('"a" matches "\w{40}\w{' || n || '}"', '{}') = 'false') AS heavy FROM generate_series(1, 50) n;

-- a constraint
ALTER TABLE orders ADD CONSTRAINT valid CHECK (expr_true('id > 0 and age < 100 and country in ["DE", "US"]', record));
INSERT INTO orders VALUES (7001, '{"id": 7001, "age": 3, "country": "FR"}');
INSERT INTO orders VALUES (7001, '{"id": 7001, "age": "3", "country": "DE"}');
INSERT INTO orders VALUES (7001, '{"id": 7001, "age": 3}');
INSERT INTO orders VALUES (7001, '{"id": 7001, "age": 3, "country": "DE"}');
UPDATE orders SET record = record || '{"age": 100}' WHERE id = 7001;
SELECT record FROM orders WHERE id = 7001;
DELETE FROM orders WHERE id = 7001;

-- an index on a rule, and one on the value of a rule
CREATE INDEX old_germans ON orders ((expr_true('age > 50 and country == "DE"', record)));
CREATE INDEX by_age ON orders ((expr_eval('age * 2', record)));
ANALYZE orders;
SET enable_seqscan = off;
EXPLAIN (COSTS OFF) SELECT count(*) FROM orders WHERE expr_true('age > 50 and country == "DE"', record);
SELECT count(*) FROM orders WHERE expr_true('age > 50 and country == "DE"', record);
EXPLAIN (COSTS OFF) SELECT count(*) FROM orders WHERE expr_eval('age * 2', record) = '84';
SELECT count(*) FROM orders WHERE expr_eval('age * 2', record) = '84';
RESET enable_seqscan;
SELECT count(*) FROM orders WHERE (record->>'age')::int > 50 AND record->>'country' = 'DE';

-- a generated column, and a view
ALTER TABLE orders ADD COLUMN german boolean GENERATED ALWAYS AS (expr_true('country == "DE"', record)) STORED;
CREATE VIEW germans AS SELECT id FROM orders WHERE expr_true('country == "DE"', record);
SELECT count(*) FILTER (WHERE german), (SELECT count(*) FROM germans) AS in_view FROM orders;

-- workers in parallel
DROP INDEX old_germans;
SET max_parallel_workers_per_gather = 2;
SET parallel_setup_cost = 0;
SET parallel_tuple_cost = 0;
SET min_parallel_table_scan_size = 0;
EXPLAIN (COSTS OFF) SELECT count(*) FROM orders WHERE expr_true('age > 50 and country == "DE"', record);
SELECT count(*) FROM orders WHERE expr_true('age > 50 and country == "DE"', record);
SET force_parallel_mode = on;
SELECT sum((expr_eval('age * 2', record))::int) FROM orders;
SELECT sum((record->>'age')::int * 2) FROM orders;
-- an error in a worker
SELECT count(*) FROM orders WHERE expr_true('age > 50 and nope == "DE"', record);
