-- The groups and the shares of a house's bill. One text, for SQLite from 3.28 on and for PostgreSQL.
--
-- It reads three tables:
--   held     (tenant, entry)    this tenant holds this film under this key
--   entry    (entry, streams)   a film and a key; streams is null where the film could not be read
--   streams  (streams, video_bytes, audio_bytes, video_sha256, audio_sha256)
-- A tenant is stored as its number less 2^63, a signed number of 64 bits: none is lost, and their order is kept.
--
-- It gives a line for each tenant of each copy. Way 0 is how films were filed before, a copy for each film and key;
-- way 1 is a copy for each two streams, whichever films and keys they come from.
WITH equal_streams AS (
    SELECT streams, DENSE_RANK() OVER (ORDER BY video_sha256, audio_sha256, video_bytes, audio_bytes) AS copy
    FROM streams
),
kept AS (
    SELECT 1 AS way, entry.entry AS entry, equal_streams.streams AS streams, equal_streams.copy AS copy
    FROM entry JOIN equal_streams ON equal_streams.streams = entry.streams
    UNION ALL
    SELECT 0, entry, streams, entry FROM entry WHERE streams IS NOT NULL
),
-- A tenant that holds a copy twice holds it once.
holder AS (
    SELECT kept.way, kept.copy, held.tenant, MIN(kept.streams) AS streams
    FROM held JOIN kept ON kept.entry = held.entry
    GROUP BY kept.way, kept.copy, held.tenant
),
placed AS (
    SELECT
        way, copy, tenant, streams,
        MIN(tenant) OVER (PARTITION BY way, copy) AS lowest,
        COUNT(*) OVER (PARTITION BY way, copy) AS holders,
        ROW_NUMBER() OVER (PARTITION BY way, copy ORDER BY tenant) AS place
    FROM holder
)
-- An even share each; of a remainder one byte each to the lowest tenants.
SELECT
    placed.way, placed.tenant, placed.lowest, streams.video_bytes, streams.audio_bytes,
    (streams.video_bytes + streams.audio_bytes) / placed.holders
        + CASE WHEN placed.place <= (streams.video_bytes + streams.audio_bytes) % placed.holders THEN 1 ELSE 0 END
        AS share,
    streams.video_sha256, streams.audio_sha256, placed.copy, placed.streams
FROM placed JOIN streams ON streams.streams = placed.streams
ORDER BY placed.way, placed.tenant, placed.copy
