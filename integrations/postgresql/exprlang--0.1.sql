\echo Use "CREATE EXTENSION exprlang" to load this file. \quit

CREATE FUNCTION expr_true(rule text, record jsonb) RETURNS boolean
    AS 'MODULE_PATHNAME', 'exprlang_true' LANGUAGE C IMMUTABLE STRICT PARALLEL SAFE COST 50;
COMMENT ON FUNCTION expr_true(text, jsonb) IS 'whether a rule is true of a record; an error if its value is not a boolean';

CREATE FUNCTION expr_eval(rule text, record jsonb) RETURNS jsonb
    AS 'MODULE_PATHNAME', 'exprlang_eval' LANGUAGE C IMMUTABLE STRICT PARALLEL SAFE COST 50;
COMMENT ON FUNCTION expr_eval(text, jsonb) IS 'the value of a rule for a record';

CREATE FUNCTION expr_check(rule text) RETURNS text
    AS 'MODULE_PATHNAME', 'exprlang_check' LANGUAGE C IMMUTABLE STRICT PARALLEL SAFE COST 50;
COMMENT ON FUNCTION expr_check(text) IS 'the first error of a rule, with its line and column, or null';

CREATE FUNCTION expr_version() RETURNS text
    AS 'MODULE_PATHNAME', 'exprlang_version' LANGUAGE C STABLE STRICT PARALLEL SAFE;
COMMENT ON FUNCTION expr_version() IS 'the version of the library, and whether it is proved';
