SELECT day, customer, cents
FROM orders
ORDER BY day DESC
FETCH FIRST ROW ONLY
