-- The customers by what they spent in all, where customers of one total share a place, with the sum of the totals so far.
SELECT customer, COUNT(*) AS orders, SUM(cents) AS total,
       RANK() OVER (ORDER BY SUM(cents) DESC) AS place,
       SUM(SUM(cents)) OVER (ORDER BY SUM(cents) DESC, customer) AS so_far
FROM orders
GROUP BY customer
ORDER BY place, customer
