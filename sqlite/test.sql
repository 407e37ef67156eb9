-- Rows of the extension of SQLite, by its shell: tools/try_databases loads the extension before.
.nullvalue (null)
SELECT legumeyet_format(1234567.891, 'de'), legumeyet_format(12345678, 'hi'), legumeyet_format(1234.5, 'de', 'currency/EUR');
SELECT legumeyet_read('1.234,5', 'de'), typeof(legumeyet_read('1.234,5', 'de')), legumeyet_read_or_null('1,23', 'en');
SELECT legumeyet_format(1234567.891, 'de', '@@#'), legumeyet_format(0.012345, 'de', '.0#/@@r'), legumeyet_format(1234.5, 'es', 'group-on-aligned');
SELECT legumeyet_plural(1, 'pl'), legumeyet_plural(22, 'pl'), legumeyet_plural('1.0', 'en'), legumeyet_plural(2, 'en', 'ordinal'), legumeyet_plural(NULL, 'en');
CREATE TABLE sales (article TEXT, amount REAL, share REAL, tag TEXT);
INSERT INTO sales VALUES ('tea', 1234.5, 12.5, 'de'), ('rice', 1234567.0, 87.5, 'hi'), ('salt', NULL, 0, 'en');
SELECT article, legumeyet_format(amount, tag, 'currency/EUR'), legumeyet_format(share, tag, 'percent') FROM sales;
SELECT legumeyet_format(sum(amount), 'de', '.00') FROM sales;
WITH RECURSIVE n(at) AS (SELECT 1 UNION ALL SELECT at + 1 FROM n WHERE at < 10000) SELECT sum(length(legumeyet_format(at, 'de'))) FROM n;
