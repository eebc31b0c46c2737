-- How the calls of each month (UTC) ended that an account received or made: the cause, its status, and how many CDRs have it. An answered call has `ended` and 0.
SELECT strftime('%Y-%m', began / 1000, 'unixepoch') AS month,
       cause,
       code,
       sum(kind = 0) AS made,
       sum(kind = 1) AS received
FROM charges
WHERE kind IN (0, 1)
GROUP BY month, cause, code
ORDER BY month, made + received DESC, cause, code;
