-- The mean of the last three days that were measured, day by day: a frame over days, not over rows, so a missing day counts.
SELECT station, day, tenths,
       SUM(tenths) OVER last_three / COUNT(tenths) OVER last_three AS mean,
       COUNT(*) OVER last_three AS days,
       MAX(tenths) OVER (PARTITION BY station ORDER BY day ROWS BETWEEN 1 PRECEDING AND 1 FOLLOWING) AS highest_around
FROM readings
WINDOW last_three AS (PARTITION BY station ORDER BY day RANGE BETWEEN 2 PRECEDING AND CURRENT ROW)
ORDER BY station, day
