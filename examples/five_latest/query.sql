-- The five latest orders: the rows of the last of these days are more than the places that are left.
SELECT day, customer, cents
FROM orders
ORDER BY day DESC
FETCH FIRST 5 ROWS ONLY
