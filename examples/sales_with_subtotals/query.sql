-- What each region sold on each day, with a subtotal for each region and a total, and the place of each row among those of its
-- level. Sales without a region have NULL there, as the total has: GROUPING tells them apart.
SELECT region, day, SUM(cents) AS cents, COUNT(*) AS sales,
       GROUPING(region, day) AS level,
       RANK() OVER (PARTITION BY GROUPING(region, day) ORDER BY SUM(cents) DESC) AS place
FROM sales
GROUP BY ROLLUP (region, day)
ORDER BY GROUPING(region), region, level, day
