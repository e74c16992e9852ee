-- A backend whose memory runs out: an error, and the session goes on.
CREATE TABLE large AS SELECT jsonb_build_object('xs', (SELECT jsonb_agg(i) FROM generate_series(1, 900000) i)) AS record;
CREATE TABLE large_rules AS SELECT 'repeat(repeat("a", 1000), 15000) != ""' AS rule;
\c
SELECT pg_backend_pid() AS backend \gset
\setenv BACKEND :backend
SELECT ended(rule, '{}') FROM large_rules;
\! prlimit --pid "$BACKEND" --as=$(($(awk '/^VmSize/ { print $2 }' "/proc/$BACKEND/status") * 1024 + 4000000)):
SELECT ended(rule, '{}') FROM large_rules;
SELECT ended(rule, '{}'), ended('n + 1', '{"n": 1}') FROM large_rules;
SELECT ended('len(xs)', record), ended('n + 1', '{"n": 1}') FROM large;
\! prlimit --pid "$BACKEND" --as=unlimited:
SELECT ended(rule, '{}'), ended('len(xs)', record) FROM large_rules, large;
SELECT pg_backend_pid() = :backend AS same_backend;
