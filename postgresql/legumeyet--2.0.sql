\echo Use "CREATE EXTENSION legumeyet" to load this file. \quit

-- A format is a number skeleton of ICU, as 'currency/EUR .00'; without one, a number is written with the digits that it has.

CREATE FUNCTION @extschema@.format(number numeric, tag text, format text DEFAULT '') RETURNS text
    AS 'MODULE_PATHNAME', 'legumeyet_pg_format_numeric' LANGUAGE C IMMUTABLE STRICT PARALLEL SAFE;
CREATE FUNCTION @extschema@.format(number integer, tag text, format text DEFAULT '') RETURNS text
    AS 'MODULE_PATHNAME', 'legumeyet_pg_format_integer' LANGUAGE C IMMUTABLE STRICT PARALLEL SAFE;
CREATE FUNCTION @extschema@.format(number bigint, tag text, format text DEFAULT '') RETURNS text
    AS 'MODULE_PATHNAME', 'legumeyet_pg_format_bigint' LANGUAGE C IMMUTABLE STRICT PARALLEL SAFE;
CREATE FUNCTION @extschema@.format(number double precision, tag text, format text DEFAULT '') RETURNS text
    AS 'MODULE_PATHNAME', 'legumeyet_pg_format_double' LANGUAGE C IMMUTABLE STRICT PARALLEL SAFE;
CREATE FUNCTION @extschema@.format(number real, tag text, format text DEFAULT '') RETURNS text
    AS 'MODULE_PATHNAME', 'legumeyet_pg_format_real' LANGUAGE C IMMUTABLE STRICT PARALLEL SAFE;
CREATE FUNCTION @extschema@.format(number money, tag text, format text DEFAULT '') RETURNS text
    AS 'MODULE_PATHNAME', 'legumeyet_pg_format_money' LANGUAGE C IMMUTABLE STRICT PARALLEL SAFE;

CREATE FUNCTION @extschema@.read(typed text, tag text, format text DEFAULT '') RETURNS numeric
    AS 'MODULE_PATHNAME', 'legumeyet_pg_read' LANGUAGE C IMMUTABLE STRICT PARALLEL SAFE;

CREATE FUNCTION @extschema@.read_or_null(typed text, tag text, format text DEFAULT '') RETURNS numeric
    AS 'MODULE_PATHNAME', 'legumeyet_pg_read_or_null' LANGUAGE C IMMUTABLE STRICT PARALLEL SAFE;

CREATE FUNCTION @extschema@.version() RETURNS text
    AS 'MODULE_PATHNAME', 'legumeyet_pg_version' LANGUAGE C STABLE STRICT PARALLEL SAFE;

COMMENT ON FUNCTION @extschema@.format(numeric, text, text) IS 'writes a number for a locale: legumeyet.format(1234.5, ''de'', ''currency/EUR'')';
COMMENT ON FUNCTION @extschema@.format(integer, text, text) IS 'writes a number for a locale';
COMMENT ON FUNCTION @extschema@.format(bigint, text, text) IS 'writes a number for a locale';
COMMENT ON FUNCTION @extschema@.format(double precision, text, text) IS 'writes a number for a locale, by its shortest digits';
COMMENT ON FUNCTION @extschema@.format(real, text, text) IS 'writes a number for a locale, by its shortest digits';
COMMENT ON FUNCTION @extschema@.format(money, text, text) IS 'refuses money: cast it to numeric';
COMMENT ON FUNCTION @extschema@.read(text, text, text) IS 'reads a number that somebody typed: legumeyet.read(''1.234,5'', ''de'')';
COMMENT ON FUNCTION @extschema@.read_or_null(text, text, text) IS 'reads a number that somebody typed, or returns null';
COMMENT ON FUNCTION @extschema@.version() IS 'the version of the library inside';

-- refused here where the texts of the database are not UTF-8
SELECT @extschema@.version();
