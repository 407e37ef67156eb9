-- Rows of the extension. Each value is that of CLDR for the locale, of ICU4C or of docs/.
CREATE EXTENSION legumeyet;
\pset format unaligned
\pset tuples_only on
\pset null (null)
-- the version of the extension is that of the library inside
SELECT extversion = legumeyet.version() FROM pg_extension WHERE extname = 'legumeyet';
-- without a format a number is written with the digits that it has
SELECT legumeyet.format(1234567.891, 'de'), legumeyet.format(1234567.891, 'hi'), legumeyet.format(1234567.891, 'ar-EG');
SELECT legumeyet.format(1234.50, 'de'), legumeyet.format(1234.5::numeric(14,2), 'en', '  '), legumeyet.format(0.123456789, 'en');
SELECT legumeyet.format(-0.0, 'en'), legumeyet.format(-5, 'en'), legumeyet.format(0, 'de');
-- each type of numbers
SELECT legumeyet.format(1::smallint, 'en'), legumeyet.format(-2147483648, 'en'), legumeyet.format((-9223372036854775808)::bigint, 'en');
SELECT legumeyet.format(0.1::real, 'en'), legumeyet.format(1e21::double precision, 'en'), legumeyet.format('-0'::double precision, 'en');
SELECT legumeyet.format(12345678901234567890.123456789012345678901234567890, 'en');
SELECT length(legumeyet.format(('1' || repeat('0', 32767))::numeric, 'en', 'group-off')), length(legumeyet.format(('-1' || repeat('0', 100))::numeric, 'hi'));
SELECT legumeyet.format(5e-324::double precision, 'en') = '0.' || repeat('0', 323) || '5';
SELECT legumeyet.format(1e38::real, 'en', 'group-off') = '1' || repeat('0', 38);
-- a number in quotes is double precision to PostgreSQL
SELECT legumeyet.format('1234.50', 'de'), legumeyet.format('1234.50'::numeric, 'de');
-- formats
SELECT legumeyet.format(1234.5, 'de', 'currency/EUR'), legumeyet.format(1.005, 'en', 'currency/USD'), legumeyet.format(5, 'ja', 'currency/JPY');
SELECT legumeyet.format(12.5, 'tr', 'percent'), legumeyet.format(1.005, 'en', '.00'), legumeyet.format(1.23456, 'en', '.00##'), legumeyet.format(1.2, 'en', '.00##');
SELECT legumeyet.format(1650, 'en', 'compact-short'), legumeyet.format(12345678, 'hi', 'compact-long'), legumeyet.format(-1172700.0, 'en', 'compact-short');
SELECT legumeyet.format(1234567.891, 'de', 'scientific'), legumeyet.format(0.00012, 'sv', 'engineering');
SELECT legumeyet.format(1234567, 'de', 'group-off'), legumeyet.format(5, 'en', 'sign-always');
SELECT legumeyet.format(0.123456789, 'en', 'sign-auto'), legumeyet.format(1.50, 'en', 'sign-auto');
-- significant digits, either of two precisions, and groups of four digits too
SELECT legumeyet.format(1234567.891, 'de', '@@#'), legumeyet.format(0.0012345, 'de', '@@#'), legumeyet.format(5, 'en', '@@#'), legumeyet.format(1.500, 'en', '@@#');
SELECT legumeyet.format(12345678, 'hi', 'currency/INR @@#'), legumeyet.format(12.345::double precision, 'en', '@@# percent');
SELECT legumeyet.format(1234.567, 'de', '.0#/@@r'), legumeyet.format(0.012345, 'de', '.0#/@@r'), legumeyet.format(5, 'de', '.0#/@@r'), legumeyet.format(1234.567, 'de', '.0#/@@s');
SELECT legumeyet.format(1234.5, 'es'), legumeyet.format(1234.5, 'es', 'group-on-aligned'), legumeyet.format(1234, 'pl', ',!'), legumeyet.format(1234.5, 'es', 'currency/EUR group-on-aligned');
SELECT legumeyet.read('1.234,5', 'es', 'group-on-aligned'), legumeyet.read('1234,5', 'es', 'group-on-aligned');
-- read back what people type
SELECT legumeyet.read('1.234,5', 'de'), legumeyet.read(' 1234,50 ', 'de'), legumeyet.read('१२३', 'hi'), legumeyet.read('.5', 'en');
SELECT legumeyet.read('1.234,50 €', 'de', 'currency/EUR'), legumeyet.read('12,5 %', 'de', 'percent'), legumeyet.read('-5', 'en');
SELECT legumeyet.read('1,234.5', 'ar-EG'), legumeyet.read('١٬٢٣٤٫٥', 'ar-EG');
SELECT legumeyet.read_or_null('1,23', 'en'), legumeyet.read_or_null('', 'en'), legumeyet.read_or_null('abc', 'en'), legumeyet.read_or_null('1,234', 'en');
SELECT legumeyet.read_or_null('0.' || repeat('1', 16383), 'en') > 0, legumeyet.read_or_null('0.' || repeat('1', 16384), 'en');
SELECT legumeyet.read_or_null(repeat('1', 1000000), 'en'), length(legumeyet.read(repeat('9', 32768), 'en')::text);
-- plural categories of numbers as they are shown, cardinal and ordinal
SELECT legumeyet.plural(1, 'pl'), legumeyet.plural(2, 'pl'), legumeyet.plural(5, 'pl'), legumeyet.plural(22::bigint, 'pl'), legumeyet.plural(1.5, 'pl'), legumeyet.plural(0::smallint, 'pl');
SELECT legumeyet.plural(1, 'en'), legumeyet.plural(1.0, 'en'), legumeyet.plural(1::real, 'en'), legumeyet.plural(round(0.96, 1), 'en'), legumeyet.plural(-1, 'en'), legumeyet.plural(0.1::real, 'fr');
SELECT legumeyet.plural(0, 'ar'), legumeyet.plural(2, 'ar'), legumeyet.plural(11, 'ar'), legumeyet.plural(1000000, 'fr'), legumeyet.plural(1e6::double precision, 'fr'), legumeyet.plural(1, 'ja');
SELECT string_agg(legumeyet.plural(n, 'en', 'ordinal'), ' ' ORDER BY n) FROM (VALUES (1), (2), (3), (4), (11), (21)) AS v (n);
SELECT legumeyet.plural(2, 'en', 'cardinal'), legumeyet.plural(tag => 'en', number => 2, type => 'ordinal'), legumeyet.format(2, 'en'), legumeyet.plural(NULL::integer, 'en');
-- null
SELECT legumeyet.format(NULL::numeric, 'de'), legumeyet.format(1, NULL), legumeyet.format(1, 'de', NULL), legumeyet.read(NULL, 'de');
-- named arguments, a column of tags and of formats
SELECT legumeyet.format(tag => 'de', number => 1234.5, format => 'currency/EUR');
SELECT legumeyet.format(n, tag, format) FROM (VALUES (1, 1234.5, 'de', ''), (2, 1234.5, 'en', '.00'), (3, 1234.5, 'hi', 'currency/EUR'), (4, 1234.5, 'de', '')) AS v (at, n, tag, format) ORDER BY at;
-- what is refused
SELECT legumeyet.format('NaN'::numeric, 'de');
\echo :SQLSTATE
SELECT legumeyet.format('NaN'::double precision, 'de');
SELECT legumeyet.format('-Infinity'::double precision, 'de');
SELECT legumeyet.format('Infinity'::real, 'de');
\echo :SQLSTATE
SELECT legumeyet.format(5::money, 'de');
\echo :SQLSTATE
SELECT legumeyet.format(1, 'e');
\echo :SQLSTATE
SELECT legumeyet.format(1, 'de_DE');
SELECT legumeyet.format(1, '');
SELECT legumeyet.format(1, 'xx');
SELECT legumeyet.format(1, 'en', 'percent foo');
\echo :SQLSTATE
SELECT legumeyet.format(1, 'en', 'percent currency/EUR');
SELECT legumeyet.format(1, 'en', 'currency/EURO');
SELECT legumeyet.format(1, 'en', '.00 sign-accounting');
SELECT legumeyet.format(1, 'en', 'latin');
SELECT legumeyet.format(1, 'en', 'unit/meter');
SELECT legumeyet.format(1, 'en', 'decimal-always');
SELECT legumeyet.format(1, 'en', 'compact-short currency/EUR');
SELECT legumeyet.format(1, 'en', 'compact-short scale/100');
SELECT legumeyet.format(1, repeat('é', 60));
SELECT legumeyet.format(('1' || repeat('0', 32768))::numeric, 'en');
\echo :SQLSTATE
SELECT legumeyet.format(repeat('9', 32768)::numeric, 'en', 'compact-short');
SELECT legumeyet.plural(1, 'en', 'ordinals');
\echo :SQLSTATE
SELECT legumeyet.plural('NaN'::numeric, 'en');
SELECT legumeyet.plural(1, 'xx');
SELECT legumeyet.read('1,23', 'en');
\echo :SQLSTATE
SELECT legumeyet.read('1,2M', 'en', 'compact-short');
SELECT legumeyet.read_or_null('5', 'e');
SELECT legumeyet.format('1234.5'::text, 'de');
-- in an index, a generated column and a constraint
CREATE TABLE prices (amount numeric(12, 2), label text GENERATED ALWAYS AS (legumeyet.format(amount, 'de', 'currency/EUR')) STORED, typed text CHECK (legumeyet.read_or_null(typed, 'de') IS NOT NULL));
CREATE INDEX ON prices (legumeyet.read(typed, 'de'));
CREATE INDEX ON prices (legumeyet.plural(amount, 'pl'));
INSERT INTO prices (amount, typed) VALUES (1234.5, '1.234,5'), (-0.5, '-0,5');
INSERT INTO prices (amount, typed) VALUES (1, '1.23.4');
SELECT label, typed FROM prices WHERE legumeyet.read(typed, 'de') > 0;
DROP TABLE prices;
-- more tags and formats than are kept, and one that is too long to be
SELECT count(*), count(DISTINCT length(t)) FROM (SELECT legumeyet.format(1234.5, 'de-x-a' || n, CASE n % 2 WHEN 0 THEN '' ELSE '.00' END) t FROM generate_series(1, 3000) n) s;
SELECT legumeyet.format(1234.5, 'de-x' || repeat('-abcdefgh', 40)), legumeyet.format(1234.5, 'de', '.00' || repeat(' ', 300)), legumeyet.format(1234.5, 'de');
-- it goes and comes
DROP EXTENSION legumeyet;
CREATE EXTENSION legumeyet;
SELECT legumeyet.format(1234567.891, 'de');
