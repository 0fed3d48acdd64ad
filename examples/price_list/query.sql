-- The price list, the cheapest first. Products of one price share a place and may stand there in any order.
SELECT RANK() OVER (ORDER BY cents) AS place, name, cents
FROM products
ORDER BY place
