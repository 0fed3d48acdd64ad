-- The price list, the cheapest first; the id parts products of one price, so that the list is one.
SELECT RANK() OVER (ORDER BY cents) AS place, name, cents
FROM products
ORDER BY place, id
