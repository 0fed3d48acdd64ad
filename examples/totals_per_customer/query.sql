-- The customers by what they spent in all. Customers of one total tie, and each of them may have the better place.
SELECT customer, COUNT(*) AS orders, SUM(cents) AS total,
       ROW_NUMBER() OVER (ORDER BY SUM(cents) DESC) AS place
FROM orders
GROUP BY customer
ORDER BY place
