CREATE EXTERNAL TABLE orders (id BIGINT, customer VARCHAR, item VARCHAR, qty BIGINT, note VARCHAR) STORED AS CSV LOCATION 'examples/orders.csv';
CREATE EXTERNAL TABLE prices (item VARCHAR, price DECIMAL(8, 2)) STORED AS CSV LOCATION 'examples/prices.csv';
SELECT o.customer, SUM(o.qty * p.price) AS total
FROM orders AS o LEFT JOIN prices AS p ON p.item = o.item AND p.price > 0
GROUP BY o.customer ORDER BY total DESC, customer;
