-- What each region has sold up to and with each sale, and its share of the region's sales in per mille.
SELECT region, day, cents,
       SUM(cents) OVER (PARTITION BY region ORDER BY day, id ROWS UNBOUNDED PRECEDING) AS so_far,
       cents * 1000 / SUM(cents) OVER (PARTITION BY region) AS per_mille
FROM sales
ORDER BY region, day, id
