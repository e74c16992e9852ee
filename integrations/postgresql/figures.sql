-- What a row takes, in nanoseconds of this backend's processor: the least of so many repetitions. Prints a name, a bar and a number a line.
\pset format unaligned
\pset tuples_only on
\getenv rows ROWS
\getenv repetitions REPETITIONS
SET max_parallel_workers_per_gather = 0;
CREATE OR REPLACE FUNCTION spent() RETURNS float8 LANGUAGE sql VOLATILE AS
    $$ SELECT split_part(pg_read_file('/proc/self/schedstat'), ' ', 1)::float8 $$;
CREATE FUNCTION spent_on(query text) RETURNS float8 LANGUAGE plpgsql AS $$
DECLARE
    start float8 := spent();
    counted bigint;
BEGIN
    EXECUTE query INTO counted;
    IF counted <> (SELECT count(*) FROM records WHERE (record->>'age')::int > 18 AND record->>'country' IN ('DE', 'FR')) THEN
        RAISE 'another count: %', query;
    END IF;
    RETURN spent() - start;
END $$;
CREATE TABLE records AS SELECT jsonb_build_object('id', i, 'age', i % 60, 'name', 'n' || i, 'country', CASE WHEN i % 3 = 0 THEN 'DE' ELSE 'US' END,
    'score', i * 3, 'tags', '["a", "b"]'::jsonb) AS record FROM generate_series(1, :rows) i;
ANALYZE records;
WITH queries (place, name, condition) AS (VALUES
    (1, 'expr_true', $$expr_true('age > 18 and country in ["DE", "FR"]', record)$$),
    (2, 'jsonpath', $$record @@ '$.age > 18 && ($.country == "DE" || $.country == "FR")'$$),
    (3, '->>', $$(record->>'age')::int > 18 AND record->>'country' IN ('DE', 'FR')$$))
SELECT name, round(min(spent_on('SELECT count(*) FROM records WHERE ' || condition)) / :rows)
    FROM queries, generate_series(1, :repetitions) GROUP BY place, name ORDER BY place;
