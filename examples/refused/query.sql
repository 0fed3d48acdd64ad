-- The orders of two customers.
SELECT id, day, cents
FROM orders
WHERE customer IN ('Amara', 'Bo')
