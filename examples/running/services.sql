-- Each account's services of each month (UTC): the diversions that it made with how many of them were answered and for how many minutes, its participations in conferences with their
-- minutes, and the holds of its calls. A kind is 2 of a diversion, 3 of a participation.
SELECT strftime('%Y-%m', began / 1000, 'unixepoch') AS month,
       account,
       sum(kind = 2) AS diversions,
       sum(kind = 2 AND answered IS NOT NULL) AS diversions_answered,
       round(total(CASE WHEN kind = 2 THEN ended - answered END) / 60000, 1) AS minutes_diverted,
       sum(kind = 3) AS seats,
       round(total(CASE WHEN kind = 3 THEN ended - answered END) / 60000, 1) AS minutes_seated,
       sum(CASE WHEN kind IN (0, 1) THEN holds ELSE 0 END) AS holds
FROM charges
GROUP BY month, account
ORDER BY month, account;
