-- Each account's calls of each month (UTC, by the moment at which they began): how many it made and how many it received, how many of these were answered, and their minutes after the
-- answer. A kind is 0 of a call that the account made, 1 of one that it received; moments are milliseconds since 1970.
SELECT strftime('%Y-%m', began / 1000, 'unixepoch') AS month,
       account,
       sum(kind = 0) AS made,
       sum(kind = 0 AND answered IS NOT NULL) AS made_answered,
       sum(kind = 1) AS received,
       sum(kind = 1 AND answered IS NOT NULL) AS received_answered,
       round(total(CASE WHEN kind = 0 THEN ended - answered END) / 60000, 1) AS minutes_made,
       round(total(CASE WHEN kind = 1 THEN ended - answered END) / 60000, 1) AS minutes_received
FROM charges
WHERE kind IN (0, 1)
GROUP BY month, account
ORDER BY month, account;
