\echo Use "ALTER EXTENSION legumeyet UPDATE" to load this file. \quit

-- The word of the plural category of a number, of the type 'cardinal' or 'ordinal'.

CREATE FUNCTION @extschema@.plural(number numeric, tag text, type text DEFAULT 'cardinal') RETURNS text
    AS 'MODULE_PATHNAME', 'legumeyet_pg_plural_numeric' LANGUAGE C IMMUTABLE STRICT PARALLEL SAFE;
CREATE FUNCTION @extschema@.plural(number integer, tag text, type text DEFAULT 'cardinal') RETURNS text
    AS 'MODULE_PATHNAME', 'legumeyet_pg_plural_integer' LANGUAGE C IMMUTABLE STRICT PARALLEL SAFE;
CREATE FUNCTION @extschema@.plural(number bigint, tag text, type text DEFAULT 'cardinal') RETURNS text
    AS 'MODULE_PATHNAME', 'legumeyet_pg_plural_bigint' LANGUAGE C IMMUTABLE STRICT PARALLEL SAFE;
CREATE FUNCTION @extschema@.plural(number double precision, tag text, type text DEFAULT 'cardinal') RETURNS text
    AS 'MODULE_PATHNAME', 'legumeyet_pg_plural_double' LANGUAGE C IMMUTABLE STRICT PARALLEL SAFE;
CREATE FUNCTION @extschema@.plural(number real, tag text, type text DEFAULT 'cardinal') RETURNS text
    AS 'MODULE_PATHNAME', 'legumeyet_pg_plural_real' LANGUAGE C IMMUTABLE STRICT PARALLEL SAFE;

COMMENT ON FUNCTION @extschema@.plural(numeric, text, text) IS 'the plural category of a number as it is shown: legumeyet.plural(5, ''pl'') is many';
COMMENT ON FUNCTION @extschema@.plural(integer, text, text) IS 'the plural category of a number';
COMMENT ON FUNCTION @extschema@.plural(bigint, text, text) IS 'the plural category of a number';
COMMENT ON FUNCTION @extschema@.plural(double precision, text, text) IS 'the plural category of a number, by its shortest digits';
COMMENT ON FUNCTION @extschema@.plural(real, text, text) IS 'the plural category of a number, by its shortest digits';
