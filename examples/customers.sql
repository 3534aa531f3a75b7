CREATE EXTERNAL TABLE orders (id BIGINT, customer VARCHAR, item VARCHAR, qty BIGINT, note VARCHAR) STORED AS CSV LOCATION 'examples/orders.csv';
SELECT customer, COUNT(*) AS orders, SUM(qty) AS pieces FROM orders WHERE qty > 0 GROUP BY customer ORDER BY pieces DESC;
