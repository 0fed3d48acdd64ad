-- The latest order; the id parts orders of one day.
SELECT day, customer, cents
FROM orders
ORDER BY day DESC, id
FETCH FIRST ROW ONLY
