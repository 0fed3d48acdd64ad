-- The two dearest orders of each customer. The id parts orders of one price, so the report has one answer.
SELECT customer, id, cents
FROM (
    SELECT customer, id, cents,
           ROW_NUMBER() OVER (PARTITION BY customer ORDER BY cents DESC NULLS LAST, id) AS place
    FROM orders
) AS ranked
WHERE place <= 2
ORDER BY customer, place
