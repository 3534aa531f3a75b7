CREATE EXTERNAL TABLE orders (id BIGINT, customer VARCHAR, item VARCHAR, qty BIGINT, note VARCHAR) STORED AS CSV LOCATION 'examples/orders.csv';
SELECT item FROM orders;
