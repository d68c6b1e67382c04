-- A recording of `ads record` for people: `sqlite3 FILE`, then `.read tools/samples.sql`, then a query, as
--
--     SELECT date, whole FROM samples WHERE name = 'Main.count' ORDER BY number;
--
-- The tables `sample` and `total` keep numbers and moments as eight bytes, the high byte first. The view `samples` has them as integers:
--
--   number  from 1 on, in the order of the link
--   name    as text
--   moment  in units of 100 ns since 1601, as ADS has it
--   date    the same in UTC, to the millisecond
--   bytes   of the value, in hexadecimal digits
--   whole   the value as an unsigned integer, the low byte first: of one to seven bytes, none of others
--   signed  the value as a signed integer, the low byte first: of one to eight bytes, none of others
CREATE TEMP VIEW samples AS
-- The sixteen digits of eight bytes in hexadecimal, and by how many bits each is shifted: the high byte first, and the low byte first.
WITH digit(at, high_first, low_first) AS (
    VALUES
        (1, 60, 4), (2, 56, 0), (3, 52, 12), (4, 48, 8),
        (5, 44, 20), (6, 40, 16), (7, 36, 28), (8, 32, 24),
        (9, 28, 36), (10, 24, 32), (11, 20, 44), (12, 16, 40),
        (13, 12, 52), (14, 8, 48), (15, 4, 60), (16, 0, 56)
),
plain AS (
    SELECT
        (SELECT sum(instr('123456789ABCDEF', substr(hex(number), at, 1)) << high_first) FROM digit) AS number,
        CAST(name AS TEXT) AS name,
        (SELECT sum(instr('123456789ABCDEF', substr(hex(time), at, 1)) << high_first) FROM digit) AS moment,
        bytes,
        -- Zeros behind the bytes are its high ones. The bits of nine bytes and more do not fit.
        CASE WHEN length(bytes) BETWEEN 1 AND 8 THEN
            (SELECT sum(instr('123456789ABCDEF', substr(hex(bytes) || '00000000000000', at, 1)) << low_first) FROM digit)
        END AS word
    FROM sample
)
SELECT
    number,
    name,
    moment,
    strftime('%Y-%m-%d %H:%M:%S', moment / 10000000 - 11644473600, 'unixepoch') || printf('.%03d', moment / 10000 % 1000) AS date,
    hex(bytes) AS bytes,
    CASE WHEN length(bytes) < 8 THEN word END AS whole,
    -- Where the highest bit of the value is set, the bits above are set too.
    CASE WHEN length(bytes) < 8 AND word >> (8 * length(bytes) - 1) = 1 THEN word - (1 << 8 * length(bytes)) ELSE word END AS signed
FROM plain;
